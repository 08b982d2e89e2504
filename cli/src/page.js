"use strict";
(() => {
  const data = JSON.parse(document.getElementById("data").textContent);
  const get = (id) => document.getElementById(id);
  const floor = get("floor"), slider = get("time"), now = get("now"), play = get("play"), speed = get("speed"), paths = get("paths");
  const carriers = data.carriers.map((carrier, i) => ({
    ...carrier,
    token: floor.querySelector(`.token[data-carrier="${i}"]`),
    trail: floor.querySelector(`#trails > [data-carrier="${i}"]`),
    gate: floor.querySelector(`#gates > [data-carrier="${i}"]`),
    stops: floor.querySelector(`#stops > [data-carrier="${i}"]`),
    row: document.querySelector(`#rounds tr[data-carrier="${i}"]`),
    line: document.querySelector(`#board tr[data-carrier="${i}"]`),
  }));
  const still = window.matchMedia("(prefers-reduced-motion: reduce)");
  // time goes on between steps while it plays; step is the last whole time.
  let time = 0, step = -1, playing = false, before = 0, pending = 0, chosen = -1;

  const point = (place) => [place % data.width, Math.floor(place / data.width)];

  const state = (carrier) => {
    const at = point(carrier.path[step]).join(",");
    if (step >= carrier.finish) return `${at}, finished`;
    const next = carrier.path[step + 1];
    return next === carrier.path[step] ? `${at}, waits` : `${at}, goes to ${point(next).join(",")}`;
  };

  // On the gate board: whether the line's car has arrived, or in how many steps it does.
  const arrival = (line) => {
    const left = Number(line.dataset.finish) - step;
    line.classList.toggle("arrived", left <= 0);
    line.querySelector(".arrival").textContent = left <= 0 ? "arrived" : left === 1 ? "in 1 step" : `in ${left} steps`;
  };

  const tell = () => {
    slider.value = step;
    const words = `time ${step} of ${data.horizon}`;
    now.textContent = words;
    slider.setAttribute("aria-valuetext", words);
    for (const carrier of carriers) {
      carrier.row.querySelector(".state").textContent = state(carrier);
      carrier.token.classList.toggle("done", step >= carrier.finish);
      arrival(carrier.line);
      carrier.visits.forEach((visit, goal) => {
        // A gate counts as reached at the finish: before it a carrier may pass over it.
        const last = goal + 1 === carrier.visits.length, met = step >= (last ? carrier.finish : visit);
        for (const shown of [last ? carrier.gate : carrier.stops, carrier.row]) {
          shown.querySelector(`[data-goal="${goal}"]`).classList.toggle("met", met);
        }
      });
    }
  };

  const draw = () => {
    const whole = Math.min(Math.floor(time + 1e-6), data.horizon);
    if (whole !== step) { step = whole; tell(); }
    const part = still.matches ? 0 : Math.max(0, time - whole);
    for (const carrier of carriers) {
      const [x, y] = point(carrier.path[whole]), [nx, ny] = point(carrier.path[Math.min(whole + 1, data.horizon)]);
      const [dx, dy] = [x + (nx - x) * part, y + (ny - y) * part];
      carrier.token.setAttribute("transform", `translate(${dx * data.cell} ${dy * data.cell})`);
    }
  };

  const go = (to) => { time = Math.min(Math.max(Math.round(to), 0), data.horizon); draw(); };

  const frame = (stamp) => {
    if (!playing) return;
    time += Math.max(0, Math.min(stamp - before, 250)) / 1000 * Number(speed.value);
    before = stamp;
    // After the last finish nothing moves.
    if (time >= data.last) { run(false); go(data.last); return; }
    draw();
    pending = requestAnimationFrame(frame);
  };

  const run = (on) => {
    cancelAnimationFrame(pending);
    if (on && time >= data.last) go(0);
    playing = on && data.last > 0;
    play.textContent = playing ? "Pause" : "Play";
    if (!playing) { go(Math.floor(time + 1e-6)); return; }
    before = performance.now();
    pending = requestAnimationFrame(frame);
  };

  const pick = (i) => {
    chosen = i === chosen ? -1 : i;
    document.body.classList.toggle("picked", chosen >= 0);
    carriers.forEach((carrier, j) => {
      const on = j === chosen;
      for (const part of [carrier.token, carrier.gate, carrier.stops, carrier.row, carrier.line]) part.classList.toggle("chosen", on);
      carrier.trail.classList.toggle("shown", on || paths.checked);
      carrier.row.querySelector(".pick").setAttribute("aria-pressed", String(on));
    });
    // What is drawn last lies on top.
    if (chosen >= 0) for (const part of ["trail", "gate", "stops", "token"]) carriers[chosen][part].parentNode.append(carriers[chosen][part]);
  };

  const turn = (by) => {
    const i = chosen < 0 && by < 0 ? carriers.length - 1 : (chosen + by + carriers.length) % carriers.length;
    if (i !== chosen) pick(i);
  };

  get("first").onclick = () => { run(false); go(0); };
  get("last").onclick = () => { run(false); go(data.last); };
  get("back").onclick = () => { run(false); go(step - 1); };
  get("step").onclick = () => { run(false); go(step + 1); };
  play.onclick = () => run(!playing);
  slider.oninput = () => { const to = Number(slider.value); run(false); go(to); };
  paths.onchange = () => carriers.forEach((carrier, i) => carrier.trail.classList.toggle("shown", paths.checked || i === chosen));
  carriers.forEach((carrier, i) => {
    carrier.token.addEventListener("click", () => pick(i));
    carrier.row.querySelector(".pick").addEventListener("click", () => pick(i));
  });

  // Two digits within a second pick carriers 10 and 11.
  let digit = "", digitAt = 0;
  const byNumber = (key) => {
    const soon = performance.now() - digitAt < 1000 && carriers[Number(digit + key)] !== undefined && digit !== "" && digit !== "0";
    digit = soon ? digit + key : key;
    digitAt = performance.now();
    const i = Number(digit);
    if (i < carriers.length && (i !== chosen || !soon)) pick(i);
  };

  document.addEventListener("keydown", (event) => {
    if (event.ctrlKey || event.altKey || event.metaKey || event.target === speed) return;
    const onButton = event.target instanceof HTMLButtonElement || event.target === paths;
    const keys = {
      " ": () => run(!playing),
      ArrowLeft: get("back").onclick, ArrowRight: get("step").onclick,
      Home: get("first").onclick, End: get("last").onclick,
      c: () => turn(1), C: () => turn(-1),
      Escape: () => { if (chosen >= 0) pick(chosen); },
    };
    if (event.key === " " && onButton) return;
    if (/^[0-9]$/.test(event.key)) byNumber(event.key);
    else if (keys[event.key]) { event.preventDefault(); keys[event.key](); }
  });

  const theme = get("theme");
  theme.hidden = false;
  theme.onclick = () => {
    const root = document.documentElement, system = window.matchMedia("(prefers-color-scheme: dark)").matches ? "dark" : "light";
    root.dataset.theme = (root.dataset.theme || system) === "dark" ? "light" : "dark";
  };

  // #t=5&carrier=2&paths opens the page there.
  const wanted = new URLSearchParams(location.hash.slice(1));
  get("controls").hidden = false;
  if (wanted.has("paths")) { paths.checked = true; paths.onchange(); }
  go(Number(wanted.get("t")) || 0);
  if (wanted.has("carrier") && carriers[Number(wanted.get("carrier"))]) pick(Number(wanted.get("carrier")));
})();
