// Run at the end of a copy of a page: uses it as a person would, and writes what is wrong into the page.
(async () => {
  const wrong = window.wrong, get = (id) => document.getElementById(id);
  const want = (holds, what) => { if (!holds) wrong.push(what); };
  const end = () => {
    const out = document.createElement("pre");
    out.id = "checked";
    out.textContent = wrong.join("\n");
    document.body.append(out);
  };
  try {
    want(document.querySelector("h1").textContent.length > 3, "no heading");
    want(document.documentElement.scrollWidth <= window.innerWidth + 1, "the page is wider than the window");
    if (document.body.classList.contains("plan")) await plan();
    else {
      want(document.querySelector(".words").textContent.length > 30, "no words");
      want(!get("board"), "a gate board without a plan");
      if (document.body.classList.contains("dark")) dark();
    }
  } catch (error) { wrong.push(String(error)); }
  end();

  // A dark house is said in words, and that is all: no floor, no table, and nothing to press.
  function dark() {
    want(document.querySelector("h1").textContent.includes("Dark house"), "the heading does not say that it is a dark house");
    want(document.querySelector(".words").offsetHeight > 0, "the words are not in sight");
    for (const part of ["svg", "table", "input", "select", "output"]) want(!document.querySelector(part), `a dark house with ${part}`);
    const inSight = [...document.querySelectorAll("button")].filter((button) => button.offsetParent);
    want(inSight.length === 0, "a button that does nothing");
  }

  // The gate board's lines, from the top.
  function lines() { return [...document.querySelectorAll("#board tbody tr")]; }

  // Where the board and each of its cells stand: nothing of it moves from step to step.
  function shape() {
    return JSON.stringify([get("board"), ...document.querySelectorAll("#board :is(th, td)")].map((part) => {
      const { left, top, width, height } = part.getBoundingClientRect();
      return [left + window.scrollX, top + window.scrollY, width, height];
    }));
  }

  // The board has each carrier once with its gate and finish, in the order of finishes and then of gates.
  function gates(data) {
    const found = lines().map((line) => {
      const [gate, , , finish] = [...line.children].map((cell) => cell.textContent.trim());
      const [column, row] = gate.split(",").map(Number);
      return { carrier: Number(line.dataset.carrier), gate: row * data.width + column, finish: Number(finish) };
    });
    const expected = data.carriers.map(({ path, finish }, carrier) => ({ carrier, gate: path[path.length - 1], finish }));
    expected.sort((one, other) => one.finish - other.finish || one.gate - other.gate);
    want(JSON.stringify(found) === JSON.stringify(expected), "the gate board has other lines, or another order");
  }

  // Every line of the board says whether its car has arrived at this time, or in how many steps it does.
  function arrivals(time) {
    for (const line of lines()) {
      const left = Number(line.children[3].textContent) - time, said = line.querySelector(".arrival").textContent;
      const expected = left > 1 ? `in ${left} steps` : left === 1 ? "in 1 step" : "arrived";
      want(said === expected, `time ${time}: the board says ${said} for ${expected}`);
      want(line.classList.contains("arrived") === left <= 0, `time ${time}: the mark of a car that has arrived`);
    }
  }

  // On a narrow screen the board is whole without scrolling, and no cell has more than its room. The page is opened again in a frame
  // of that width, so that its own rules for narrow screens hold.
  async function narrow(pixels) {
    const copy = document.documentElement.cloneNode(true), frame = document.createElement("iframe");
    copy.querySelector("body > script:last-of-type").remove(); // these checks
    frame.style = `width: ${pixels}px; height: 700px; border: 0`;
    const loaded = new Promise((done) => { frame.onload = done; });
    frame.srcdoc = `<!DOCTYPE html>${copy.outerHTML}`;
    document.body.append(frame);
    await loaded;
    const inside = frame.contentDocument, board = inside.getElementById("board"), around = board.parentNode;
    want(inside.documentElement.scrollWidth <= pixels + 1, `at ${pixels} pixels the page is ${inside.documentElement.scrollWidth} wide`);
    want(board.offsetWidth <= around.clientWidth + 1, `at ${pixels} pixels the board is ${board.offsetWidth} wide in ${around.clientWidth}`);
    roomy(inside, `at ${pixels} pixels `);
    frame.remove();
  }

  // Every cell of the board has room for its words.
  function roomy(page, where) {
    for (const cell of page.querySelectorAll("#board :is(th, td)")) {
      want(cell.scrollWidth <= cell.clientWidth, `${where}"${cell.textContent}" is wider than its column`);
    }
  }

  async function plan() {
    const data = JSON.parse(get("data").textContent), { horizon, last, width, cell } = data;
    const key = (name, more) => document.body.dispatchEvent(new KeyboardEvent("keydown", { key: name, bubbles: true, cancelable: true, ...more }));
    const shown = () => Number(get("time").value);
    const places = (time) => data.carriers.every((carrier, i) => {
      const place = carrier.path[time], token = document.querySelector(`.token[data-carrier="${i}"]`);
      return token.getAttribute("transform") === `translate(${place % width * cell} ${Math.floor(place / width) * cell})`;
    });
    const at = (time, what) => { want(shown() === time, `${what}: time ${shown()} for ${time}`); want(places(time), `${what}: carriers are elsewhere`); };
    want(!get("controls").hidden, "the controls are hidden");
    for (const table of document.querySelectorAll("table")) {
      const around = table.parentNode;
      want(table.offsetWidth <= around.clientWidth + 1 || window.innerWidth < 640, `table ${table.id} is ${table.offsetWidth} wide in ${around.clientWidth}`);
    }
    key("Home"); at(0, "Home");
    gates(data);
    roomy(document, "");
    for (const pixels of [320, 390]) await narrow(pixels);
    const board = shape();
    arrivals(0);
    key("ArrowLeft"); at(0, "back at time 0");
    for (let time = 1; time <= horizon; time++) {
      key("ArrowRight"); at(time, "step");
      arrivals(time);
      want(shape() === board, `the gate board moves at time ${time}`);
    }
    key("ArrowRight"); at(horizon, "step at the horizon");
    key("End"); at(last, "End");
    arrivals(last);
    want(lines().every((line) => line.classList.contains("arrived")), "not all arrived at the last finish");
    want([...document.querySelectorAll(".state")].every((cell) => cell.textContent.endsWith("finished")), "not all finished at the last finish");
    want([...document.querySelectorAll("li:not(.start), .goal")].every((goal) => goal.classList.contains("met")), "a goal is not met at the last finish");
    get("first").click(); at(0, "Start");
    get("step").click(); at(Math.min(1, horizon), "Step");
    get("back").click(); at(0, "Back");
    get("time").value = String(horizon);
    get("time").dispatchEvent(new Event("input")); at(horizon, "slider"); arrivals(horizon);
    // It plays from the beginning once it is past the end, and stops at the last finish.
    get("speed").value = "15";
    key(" ");
    want(last === 0 || get("play").textContent === "Pause", "space does not play");
    const until = performance.now() + 2000 + last * 1000 / 10;
    let between = false;
    while (get("play").textContent === "Pause" && performance.now() < until) {
      between = between || (shown() > 0 && shown() < last);
      await new Promise((done) => setTimeout(done, 20));
    }
    want(between || last < 2, "playing shows no time between");
    if (last > 0) { at(last, "played"); arrivals(last); }
    if (last > 2) {
      key("Home"); key(" "); key(" "); key(" "); key(" ");
      want(get("play").textContent === "Play", "two pauses, and it plays");
      key(" "); key("ArrowRight");
      want(get("play").textContent === "Play", "a step does not pause");
    }
    const chosen = () => [...document.querySelectorAll("#rounds tr.chosen")].map((row) => row.dataset.carrier).join();
    const onBoard = () => lines().filter((line) => line.classList.contains("chosen")).map((line) => line.dataset.carrier).join();
    key("c"); want(chosen() === "0", `c picks ${chosen()}`);
    want(onBoard() === "0", `c picks ${onBoard()} on the board`);
    key("C", { shiftKey: true });
    want(chosen() === String(data.carriers.length - 1), `C picks ${chosen()}`);
    key("Escape"); want(chosen() === "" && onBoard() === "", "Esc picks one");
    key("0"); want(chosen() === "0", `0 picks ${chosen()}`);
    document.querySelector(".pick").click(); want(chosen() === "", "a second pick does not end it");
    document.querySelector(".token").dispatchEvent(new MouseEvent("click", { bubbles: true }));
    want(chosen() !== "", "a click on a carrier does not pick it");
    key("Escape");
    get("paths").click();
    want(document.querySelectorAll("#trails > .shown").length === data.carriers.length, "not all paths are shown");
    get("paths").click();
    want(document.querySelectorAll("#trails > .shown").length === 0, "paths stay");
    const before = getComputedStyle(document.body).backgroundColor;
    get("theme").click();
    want(getComputedStyle(document.body).backgroundColor !== before, "dark or light changes nothing");
  }
})();
