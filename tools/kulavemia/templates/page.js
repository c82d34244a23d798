"use strict";
(() => {
  const data = JSON.parse(document.getElementById("data").textContent);
  const find = (id) => document.getElementById(id);
  const make = (name, text, kind) => {
    const element = document.createElement(name);
    if (text !== undefined) element.textContent = text;
    if (kind) element.className = kind;
    return element;
  };
  const number = (count) => count.toLocaleString("en");

  // Hides the rows of a table in which a text does not stand.
  const searchTable = (input) => {
    const table = find(input.dataset.table);
    const wanted = input.value.toLowerCase();
    let shown = 0;
    for (const row of table.tBodies[0].rows) {
      row.hidden = !row.textContent.toLowerCase().includes(wanted);
      if (!row.hidden) shown += 1;
    }
    const told = document.querySelector(`.found[data-table="${input.dataset.table}"]`);
    told.textContent = wanted ? `${number(shown)} found` : "";
  };
  for (const input of document.querySelectorAll("input[data-table]")) {
    input.addEventListener("input", () => searchTable(input));
  }
  // Says for tests that the page stands, and after how many milliseconds.
  const ready = () => {
    document.documentElement.dataset.ready = Math.round(performance.now());
  };
  if (!data.roots) {
    ready();
    return;
  }

  const USERS_SHOWN = 40;
  const MOST_HOSTS = 24;
  const FEW_HOSTS = 3;
  const CELL_WIDTH = 40;
  const LABEL_LIMIT = 24;
  const NARROW_LABEL_LIMIT = 14;
  const NARROW = 800;
  const WIDE = 1000;
  // The least width of the answer beside the map, with the gap between them, as the style has them.
  const ANSWER_WIDTH = 360;
  const GRANTS_SHOWN = 200;
  const { users, hosts, cells, grants, rows, rowOf } = data.roots;
  const counted = (count, one) => `${number(count)} ${one}${count === 1 ? "" : "s"}`;
  // A cell is its level, its mark, its meaning, the ways to root and the numbers of the grants that they rest on.
  const levels = cells.map(([level]) => level);

  // The cells of a row, one for each host.
  const expanded = new Map();
  const cellsOf = (row) => {
    let found = expanded.get(row);
    if (!found) {
      found = new Uint32Array(hosts.length);
      let at = 0;
      const runs = rows[row];
      for (let i = 0; i < runs.length; i += 2) {
        found.fill(runs[i], at, at + runs[i + 1]);
        at += runs[i + 1];
      }
      expanded.set(row, found);
    }
    return found;
  };

  const groupBy = (items, key) => {
    const found = new Map();
    for (const item of items) {
      const name = key(item);
      const group = found.get(name);
      if (group) group.push(item);
      else found.set(name, [item]);
    }
    return [...found.values()];
  };

  // Hosts that are alike for all of these rows: the groups of the first rows are split by each further row.
  const hostGroups = (chosen, chosenRows) => {
    let classes = new Uint32Array(hosts.length);
    for (const row of chosenRows) {
      const cellsHere = cellsOf(row);
      const seen = new Map();
      const next = new Uint32Array(hosts.length);
      for (const host of chosen) {
        const key = classes[host] * cells.length + cellsHere[host];
        let number = seen.get(key);
        if (number === undefined) {
          number = seen.size;
          seen.set(key, number);
        }
        next[host] = number;
      }
      classes = next;
      if (seen.size === chosen.length) break;
    }
    return groupBy(chosen, (host) => classes[host]);
  };

  const placeText = (place) => (place < 0 ? "" : data.places[place].join(" "));
  const cellText = cells.map(([, mark, meaning, ways, rests]) => {
    const parts = [mark, meaning];
    for (const [target, level, password, place, ...rest] of ways) parts.push(target, level, password, placeText(place), ...rest);
    for (const at of rests) {
      const [place, ...rest] = grants[at];
      parts.push(placeText(place), ...rest);
    }
    return parts.join("\n").toLowerCase();
  });
  const rowReaches = rows.map((runs, row) => {
    for (let i = 0; i < runs.length; i += 2) if (levels[runs[i]] !== 0) return true;
    return false;
  });

  const view = { users: [], hosts: [], userAt: 0, hostAt: 0, opened: new Set() };

  const matchingCells = (text) => cellText.map((cell) => cell.includes(text));
  const rowHas = (row, which, hostList) => {
    const cellsHere = cellsOf(row);
    return hostList.some((host) => which[cellsHere[host]]);
  };

  // Chooses users and hosts by what is searched, and groups them where that is asked for.
  const choose = () => {
    const userText = find("user-search").value.toLowerCase();
    const hostText = find("host-search").value.toLowerCase();
    const answerText = find("answer-search").value.toLowerCase();
    const fold = find("fold").checked;
    const reaching = find("reaching").checked;
    let hostList = hosts.map((name, host) => host).filter((host) => hosts[host].toLowerCase().includes(hostText));
    let userList = users.map((name, user) => user).filter((user) => users[user].toLowerCase().includes(userText));
    if (reaching) userList = userList.filter((user) => rowReaches[rowOf[user]]);
    if (answerText) {
      const which = matchingCells(answerText);
      const fits = new Map();
      userList = userList.filter((user) => {
        const row = rowOf[user];
        if (!fits.has(row)) fits.set(row, rowHas(row, which, hostList));
        return fits.get(row);
      });
      const rowsLeft = [...new Set(userList.map((user) => rowOf[user]))];
      hostList = hostList.filter((host) => rowsLeft.some((row) => which[cellsOf(row)[host]]));
    }
    const rowsShown = [...new Set(userList.map((user) => rowOf[user]))];
    const one = (item) => [item];
    view.users = fold ? groupBy(userList, (user) => rowOf[user]) : userList.map(one);
    view.hosts = fold ? hostGroups(hostList, rowsShown) : hostList.map(one);
    view.users = view.users.flatMap((group) => (group.some((user) => view.opened.has("u" + user)) ? group.map(one) : [group]));
    view.hosts = view.hosts.flatMap((group) => (group.some((host) => view.opened.has("h" + host)) ? group.map(one) : [group]));
    view.userAt = Math.min(view.userAt, Math.max(0, view.users.length - 1));
    view.hostAt = Math.min(view.hostAt, Math.max(0, view.hosts.length - 1));
    find("map-found").textContent = `${counted(userList.length, "user")} in ${counted(view.users.length, "row")}, ` +
      `${counted(hostList.length, "host")} in ${counted(view.hosts.length, "column")}`;
    drawTable();
    drawOverview();
  };

  const worst = (userGroup, hostGroup) => cellsOf(rowOf[userGroup[0]])[hostGroup[0]];

  // The colours of the levels, as the style has them.
  const coloursNow = () => data.levels.map(([name]) => {
    const probe = make("span", "", name);
    find("map").append(probe);
    const parts = getComputedStyle(probe).backgroundColor.match(/\d+/g).map(Number);
    probe.remove();
    return parts;
  });

  // How many columns fit, so that the table is never wider than its place; wide names leave less room for them.
  let columns = MOST_HOSTS;
  const hostsShown = () => columns;
  const roomForTable = () => find("map").clientWidth - (window.innerWidth > WIDE ? ANSWER_WIDTH : 0);

  // Draws all rows and columns, a point each; where there are too many for it, the most that any of them reaches.
  const drawOverview = () => {
    const canvas = find("overview");
    const width = Math.min(view.hosts.length, 1200);
    const height = Math.min(view.users.length, 600);
    canvas.hidden = !(width * height) || (view.users.length <= USERS_SHOWN && view.hosts.length <= hostsShown());
    if (canvas.hidden) return;
    const colours = coloursNow();
    canvas.width = width;
    canvas.height = height;
    const worstAt = new Uint8Array(width * height);
    const first = Uint32Array.from(view.hosts, (group) => group[0]);
    const column = Uint32Array.from(view.hosts, (group, c) => Math.floor((c * width) / view.hosts.length));
    for (let r = 0; r < view.users.length; r += 1) {
      const cellsHere = cellsOf(rowOf[view.users[r][0]]);
      const start = Math.floor((r * height) / view.users.length) * width;
      for (let c = 0; c < first.length; c += 1) {
        const level = levels[cellsHere[first[c]]];
        if (level > worstAt[start + column[c]]) worstAt[start + column[c]] = level;
      }
    }
    const image = new ImageData(width, height);
    for (let at = 0; at < worstAt.length; at += 1) {
      const colour = colours[worstAt[at]];
      for (let part = 0; part < 3; part += 1) image.data[at * 4 + part] = colour[part];
      image.data[at * 4 + 3] = 255;
    }
    canvas.getContext("2d").putImageData(image, 0, 0);
    const scale = Math.max(1, Math.min(6, Math.floor(900 / width)));
    canvas.style.width = `${width * scale}px`;
    canvas.style.height = `${Math.min(600, height * Math.max(1, Math.min(scale, Math.floor(400 / height))))}px`;
  };

  const label = (group, names) => {
    const first = names[group[0]];
    const limit = window.innerWidth < NARROW ? NARROW_LABEL_LIMIT : LABEL_LIMIT;
    const cut = first.length > limit ? `${first.slice(0, limit)}…` : first;
    return group.length > 1 ? `${cut} +${group.length - 1}` : cut;
  };

  // A header; that of several can be opened into its members.
  const header = (group, names, mark) => {
    const cell = make("th");
    const span = make("span");
    cell.title = group.slice(0, 20).map((item) => names[item]).join(", ") + (group.length > 20 ? ", …" : "");
    if (group.length > 1) {
      const button = make("button", label(group, names));
      button.type = "button";
      button.setAttribute("aria-label", `${group.length} alike, ${names[group[0]]} the first: show each`);
      button.addEventListener("click", () => {
        for (const item of group) view.opened.add(mark + item);
        choose();
      });
      span.append(button);
    } else {
      span.append(make("bdi", label(group, names)));
    }
    cell.append(span);
    return cell;
  };

  const drawTable = () => {
    columns = Math.max(1, Math.min(MOST_HOSTS, Math.floor(roomForTable() / CELL_WIDTH)));
    drawCells();
    const over = find("heat").offsetWidth - roomForTable();
    if (over > 0 && columns > 1) {
      columns = Math.max(1, columns - Math.ceil(over / CELL_WIDTH));
      drawCells();
    }
    drawSteps();
  };

  const drawCells = () => {
    const table = find("heat");
    const shownUsers = view.users.slice(view.userAt, view.userAt + USERS_SHOWN);
    const shownHosts = view.hosts.slice(view.hostAt, view.hostAt + columns);
    const head = make("tr");
    head.append(make("th", "User"));
    for (const group of shownHosts) {
      const cell = header(group, hosts, "h");
      cell.scope = "col";
      cell.className = "host";
      head.append(cell);
    }
    table.className = shownHosts.length > FEW_HOSTS || window.innerWidth < NARROW ? "many" : "few";
    table.tHead.replaceChildren(head);
    table.tBodies[0].replaceChildren(...shownUsers.map((group) => tableRow(group, shownHosts)));
  };

  const drawSteps = () => {
    const shownUsers = Math.min(USERS_SHOWN, view.users.length - view.userAt);
    const shownHosts = Math.min(columns, view.hosts.length - view.hostAt);
    find("users-at").textContent = range(view.userAt, shownUsers, view.users.length, "row");
    find("hosts-at").textContent = range(view.hostAt, shownHosts, view.hosts.length, "column");
    find("users-before").disabled = view.userAt === 0;
    find("hosts-before").disabled = view.hostAt === 0;
    find("users-after").disabled = view.userAt + USERS_SHOWN >= view.users.length;
    find("hosts-after").disabled = view.hostAt + columns >= view.hosts.length;
    find("users-steps").hidden = view.users.length <= USERS_SHOWN;
    find("hosts-steps").hidden = view.hosts.length <= columns;
  };

  const range = (at, count, total, what) => `${number(total ? at + 1 : 0)}–${number(at + count)} of ${counted(total, what)}`;

  const tableRow = (group, shownHosts) => {
    const row = make("tr");
    const first = header(group, users, "u");
    first.scope = "row";
    row.append(first);
    for (const hostGroup of shownHosts) {
      const cell = worst(group, hostGroup);
      const [level, mark, meaning] = cells[cell];
      const place = make("td", undefined, data.levels[level][0]);
      const button = make("button", mark);
      button.type = "button";
      button.setAttribute("aria-label", `${users[group[0]]} on ${hosts[hostGroup[0]]}: ${meaning}`);
      button.addEventListener("click", () => showAnswer(group, hostGroup, cell, place));
      place.append(button);
      row.append(place);
    }
    return row;
  };

  // Arrow keys go from cell to cell.
  const ARROWS = { ArrowUp: [-1, 0], ArrowDown: [1, 0], ArrowLeft: [0, -1], ArrowRight: [0, 1] };
  find("heat").addEventListener("keydown", (event) => {
    const place = event.target.closest("#heat td");
    const by = ARROWS[event.key];
    if (!place || !by) return;
    const row = place.parentElement.parentElement.rows[place.parentElement.sectionRowIndex + by[0]];
    const next = row && row.cells[place.cellIndex + by[1]];
    const button = next && next.tagName === "TD" && next.querySelector("button");
    if (!button) return;
    event.preventDefault();
    button.focus();
  });

  const names = (group, all) => {
    const shown = group.slice(0, 12).map((item) => all[item]).join(", ");
    return group.length > 12 ? `${shown} and ${number(group.length - 12)} more` : shown;
  };

  const PASSWORDS = {
    none: "no password is asked",
    own: "a password is asked, the user's own",
    other: "a password is asked, that of another user on the way too",
    "?": "whether a password is asked depends",
  };

  // Shows the answer of a cell, beside it or at the foot of the window.
  const showAnswer = (group, hostGroup, cell, place) => {
    for (const chosen of document.querySelectorAll("#heat td.chosen")) chosen.classList.remove("chosen");
    place.classList.add("chosen");
    const [, mark, meaning, ways, rests] = cells[cell];
    const title = make("h3");
    title.append(make("bdi", names(group, users)), " on ", make("bdi", names(hostGroup, hosts)));
    const said = make("p");
    said.append(make("strong", `${meaning[0].toUpperCase()}${meaning.slice(1)}.`));
    const parts = [title, said, ...ways.map(wayText)];
    if (mark.endsWith("?") && ways.length && ways.every(([, , password]) => password !== "?")) {
      parts.push(make("p", "Another chain, by fewer commands, may need no password."));
    }
    if (!ways.length && mark) parts.push(make("p", "No chain of runs of sudo, of any length, leads to a user with the ID 0: so the program has found, for every command."));
    if (rests.length) parts.push(...grantParts(rests));
    else if (data.fleet && ways.some(([, level]) => level !== "root")) parts.push(make("p", "The commands there are in roots/HOST/grants.csv, with the users and hosts of each."));
    parts.push(...probeParts(group[0], hostGroup[0]));
    const box = find("answers");
    box.replaceChildren(...parts);
    box.scrollTop = 0;
    box.classList.remove("waiting");
    keepInView(place, box);
  };

  // At the foot of a narrow window the answer would stand before the lowest cells.
  const keepInView = (place, box) => {
    const [cell, answer] = [place.getBoundingClientRect(), box.getBoundingClientRect()];
    const covered = cell.right > answer.left && cell.left < answer.right && cell.bottom > answer.top;
    if (covered && answer.top > 0) window.scrollBy(0, cell.bottom - answer.top + 8);
  };

  // A page of a fleet has the places of rules, and not the rules.
  const linkOf = (place) => {
    const link = make(find(`rule-${place}`) ? "a" : "span", data.places[place][0]);
    if (link.tagName === "A") link.href = `#rule-${place}`;
    return link;
  };

  const ruleOf = (place) => {
    const rule = make("span");
    rule.append(linkOf(place));
    if (data.places[place][1]) rule.append(" ", make("code", data.places[place][1]));
    return rule;
  };

  const wayText = ([target, level, password, place, tags, via, depends]) => {
    const line = make("p");
    if (level === "root") {
      line.append(make("bdi", target), " has the ID 0.");
      return line;
    }
    line.append("As ", make("bdi", target), `: ${PASSWORDS[password] || password}`);
    if (via) line.append("; through ", make("bdi", via));
    if (place >= 0) line.append(via ? ". The first step is by " : ". By ", ruleOf(place));
    return depends ? noted(line, depends) : line;
  };

  // A way of which it is not judged whether it is there: it is the most that may be so.
  const noted = (line, depends) => {
    line.append(make("br"), `This depends on ${depends}, which is not judged: it is the most that may be so, and the least that may be asked.`);
    return line;
  };

  // The grants of the users of a cell on its hosts.
  const grantParts = (rests) => {
    const table = make("table", undefined, "rows");
    const head = make("tr");
    const depend = rests.some((at) => grants[at].length > 5);
    for (const text of ["Command", "As", "Tags", ...(depend ? ["Depends on"] : []), "Rule"]) head.append(make("th", text));
    table.createTHead().append(head);
    const body = table.createTBody();
    for (const at of rests.slice(0, GRANTS_SHOWN)) {
      const [place, runas, sign, command, tags, depends] = grants[at];
      const row = make("tr");
      const cell = (label, ...content) => {
        const made = make("td");
        made.dataset.label = label;
        made.append(...content);
        return made;
      };
      const what = [make("code", command)];
      if (sign) what.unshift(make("strong", "not "));
      row.append(cell("Command", ...what), cell("As", runas || "(root)"), cell("Tags", tags));
      if (depend) row.append(cell("Depends on", depends || ""));
      row.append(cell("Rule", linkOf(place)));
      body.append(row);
    }
    const met = depend ? ", where what its rule depends on is met" : "";
    const parts = [make("p", `The commands there, in the policy's order; the last that fits the target and the command decides${met}:`), table];
    if (rests.length > GRANTS_SHOWN) parts.push(make("p", `${number(rests.length - GRANTS_SHOWN)} more are in review/grants.csv.`));
    return parts;
  };

  // Which programs of the list were allowed: an illustration, where it was made.
  const probeParts = (user, host) => {
    if (!data.probes) return [];
    const { users: probed, hosts: probedHosts, rows: probeRows, rowOf: probeRowOf, cells: probeCells, programs } = data.probes;
    const at = probed.indexOf(users[user]);
    let left = probedHosts.indexOf(hosts[host]);
    if (at < 0 || left < 0) return [];
    const runs = probeRows[probeRowOf[at]];
    let found = [];
    for (let i = 0; i < runs.length; i += 2) {
      if (left < runs[i + 1]) {
        found = probeCells[runs[i]];
        break;
      }
      left -= runs[i + 1];
    }
    const allowed = found.filter(([, , , may]) => !may).flatMap(([, , which]) => which);
    const perhaps = found.filter(([, , , may]) => may).flatMap(([, , which]) => which);
    if (!allowed.length && !perhaps.length) return [];
    const details = make("details");
    const more = perhaps.length ? `, and ${number(perhaps.length)} may be: that depends on what is not judged` : "";
    details.append(make("summary", `For illustration: of a list of programs that give a shell or as much, ${number(allowed.length)} of ${number(programs.length)} are allowed as root${more}`));
    for (const program of [...allowed, ...perhaps]) {
      const [kind, command, rest] = programs[program];
      const line = make("div");
      line.append(make("code", rest ? `${command} ${rest}` : command), ` (${kind}${perhaps.includes(program) ? ", depends" : ""})`);
      details.append(line);
    }
    return [details];
  };

  const step = (id, name, by) => find(id).addEventListener("click", () => {
    view[name] = Math.max(0, view[name] + by());
    drawTable();
  });
  step("users-before", "userAt", () => -USERS_SHOWN);
  step("users-after", "userAt", () => USERS_SHOWN);
  step("hosts-before", "hostAt", () => -hostsShown());
  step("hosts-after", "hostAt", hostsShown);
  find("overview").addEventListener("click", (event) => {
    const box = find("overview").getBoundingClientRect();
    const part = (offset, size, total) => Math.floor((offset / size) * total);
    view.userAt = Math.max(0, part(event.clientY - box.top, box.height, view.users.length) - 5);
    view.hostAt = Math.max(0, part(event.clientX - box.left, box.width, view.hosts.length) - 5);
    drawTable();
  });
  let waiting = 0;
  for (const id of ["user-search", "host-search", "answer-search"]) {
    find(id).addEventListener("input", () => {
      clearTimeout(waiting);
      waiting = setTimeout(choose, 150);
    });
  }
  for (const id of ["fold", "reaching"]) {
    find(id).addEventListener("change", () => {
      view.opened.clear();
      choose();
    });
  }
  for (const link of document.querySelectorAll("a.who")) {
    link.addEventListener("click", () => {
      find("answer-search").value = link.dataset.place;
      choose();
    });
  }
  let resizing = 0;
  window.addEventListener("resize", () => {
    clearTimeout(resizing);
    resizing = setTimeout(choose, 150);
  });
  window.matchMedia("(prefers-color-scheme: dark)").addEventListener("change", drawOverview);
  find("map").hidden = false;
  choose();
  ready();
})();
