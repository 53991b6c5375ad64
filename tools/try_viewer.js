// What tools/try_viewer does in the page of tools/viewer.html. TASK stands above: what to do, and with which cases.

const SAVED_WIDTH = 860;

/* The numbers of the report's lines that are drawn. */
function drawnLines() {
  const numbers = [...document.querySelectorAll("[data-lines]")].flatMap((part) => part.dataset.lines.split(" "));
  return new Set(numbers.filter((number) => number !== "").map(Number));
}

function faultsOfLines(reportText) {
  const drawn = drawnLines();
  const count = reportText.replace(/\n$/, "").split("\n").length;
  const missing = Array.from({ length: count }, (none, place) => place + 1).filter((number) => !drawn.has(number));
  return missing.map((number) => `line ${number} is not drawn`);
}

/* Texts that reach over the edge, or that lie on each other. */
function faultsOfTexts(drawn, width) {
  const boxes = [...drawn.querySelectorAll("text")].filter((text) => text.textContent !== "").map((text) => ({ text, box: text.getBBox() }));
  const faults = [];
  for (const { text, box } of boxes) {
    if (box.x < -0.5 || box.x + box.width > width + 0.5) faults.push(`over the edge: ${text.textContent}`);
  }
  boxes.sort((one, other) => one.box.y - other.box.y);
  boxes.forEach(({ text, box }, place) => {
    for (let next = place + 1; next < boxes.length && boxes[next].box.y < box.y + box.height - 3; next += 1) {
      const other = boxes[next].box;
      const isApart = other.x > box.x + box.width - 1 || box.x > other.x + other.width - 1;
      if (!isApart) faults.push(`one on the other: ${text.textContent} | ${boxes[next].text.textContent}`);
    }
  });
  return faults;
}

/* A click on each step shows its lines and what was asked. */
function faultsOfClicks(script) {
  const faults = [];
  for (const part of document.querySelectorAll("#picture [data-row], #picture [data-cell]")) {
    part.dispatchEvent(new MouseEvent("click", { bubbles: true }));
    const said = document.getElementById("details").textContent;
    if (part.dataset.row === "end") {
      if (!said.includes("The end")) faults.push("a click on the end shows nothing of it");
      continue;
    }
    const [place, client, number] = (part.dataset.cell || part.dataset.row).split(" ");
    const row = page.picture.rows[place];
    const texts = client === undefined ? row.texts : row.clients[client][number].texts;
    const hasAsked = said.includes(`"do":"${script.steps[row.step - 1].do}"`) || said.includes('"do":') || said.includes('"do": ');
    if (!hasAsked || !texts.every((text) => said.includes(text))) faults.push(`a click on step ${row.step} does not show it`);
  }
  return faults;
}

function faultsOfSaved() {
  const parsed = new DOMParser().parseFromString(savedPicture(SAVED_WIDTH), "image/svg+xml");
  const texts = parsed.querySelectorAll("text").length;
  return parsed.querySelector("parsererror") || texts === 0 ? ["what is saved is no picture"] : [];
}

/* A line that can't be read is told by its number. */
function faultsOfDamage(one) {
  const lines = one.report.split("\n");
  const damaged = lines.map((line, place) => (place === 1 ? `${line} or not` : line)).join("\n");
  const told = showTexts(one.script, damaged).map((fault) => fault.where);
  return told.includes("report, line 2") ? [] : ["a damaged line 2 is not told"];
}

/* Two files are dropped, and drawn. */
async function faultsOfDrop(one) {
  showTexts("{}", "");
  const transfer = new DataTransfer();
  transfer.items.add(new File([one.report], "one.txt"));
  transfer.items.add(new File([one.script], "one.json"));
  document.dispatchEvent(new DragEvent("drop", { dataTransfer: transfer, bubbles: true, cancelable: true }));
  for (let wait = 0; wait < 50 && !page.picture; wait += 1) await new Promise((done) => setTimeout(done, 20));
  const names = document.getElementById("names").textContent;
  return page.picture && names === "one.json, one.txt" ? [] : ["two files that are dropped are not drawn"];
}

function tryCase(one) {
  const faults = showTexts(one.script, one.report).map((fault) => `unread: ${fault.where}: ${fault.why}`);
  const [drawn, heads] = [document.querySelector("#picture svg"), document.querySelector("#heads svg")];
  const width = Number(drawn.getAttribute("width"));
  faults.push(...faultsOfLines(one.report), ...faultsOfTexts(drawn, width), ...faultsOfTexts(heads, width));
  faults.push(...faultsOfClicks(JSON.parse(one.script)), ...faultsOfSaved());
  return { faults, width, height: Number(drawn.getAttribute("height")) + 36 };
}

function tryAll(cases) {
  const results = cases.map(tryCase);
  results[0].faults.push(...faultsOfDamage(cases[0]));
  return results;
}

/* Results are left in the page as hexadecimal digits, which no page changes. */
function leave(results) {
  const bytes = new TextEncoder().encode(JSON.stringify(results));
  const digits = Array.from(bytes, (byte) => byte.toString(16).padStart(2, "0")).join("");
  document.body.textContent = `RESULTS:${digits}:RESULTS`;
}

function drive({ task, cases }) {
  const [one] = cases;
  if (task === "try") return leave(tryAll(cases));
  if (task === "drop") return faultsOfDrop(one).then((faults) => leave([{ faults }]));
  page.names = { script: `${one.name}.json`, report: "its report" };
  const faults = showTexts(one.script, one.report).map((fault) => `${fault.where}: ${fault.why}`);
  return task === "draw" ? leave([{ faults, picture: savedPicture(SAVED_WIDTH) }]) : undefined;
}

drive(TASK);
