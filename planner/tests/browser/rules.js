// Judges the page that is shown. Each rule returns its faults: texts that name an element and what is wrong with it.
// "WCAG" is the W3C's Web Content Accessibility Guidelines 2.1.
const rules = (() => {
  const MOST_NAMED = 10;
  const DRAWN = "svg, img, canvas, [role=img]";
  const CONTROLS = "a[href], button, input, select, textarea, summary, [tabindex]";

  const named = (faults) => faults.length <= MOST_NAMED ? faults
    : [...faults.slice(0, MOST_NAMED), `and ${faults.length - MOST_NAMED} more`];

  const spaced = (text) => text.trim().replace(/\s+/g, " ");

  function place(element) {
    const id = element.id ? `#${element.id}` : "";
    const classes = [...element.classList].map((it) => `.${it}`).join("");
    return `${element.localName}${id}${classes} "${spaced(element.textContent).slice(0, 40)}"`;
  }

  // Text for screen readers alone is in a box of a pixel.
  const isTiny = (element) => element instanceof HTMLElement && getComputedStyle(element).display !== "inline"
    && Math.max(element.clientWidth, element.clientHeight) <= 1;

  // What the browser leaves out far below the window is not judged.
  const isShown = (element) => !isTiny(element)
    && element.checkVisibility({visibilityProperty: true, opacityProperty: true, contentVisibilityAuto: true});

  const all = (selector) => [...document.querySelectorAll(selector)].filter(isShown);

  // Returns the elements of the body that have text of their own and are shown.
  function withText() {
    const walker = document.createTreeWalker(document.body, NodeFilter.SHOW_TEXT);
    const found = new Set();
    while (walker.nextNode()) if (walker.currentNode.data.trim()) found.add(walker.currentNode.parentElement);
    return [...found].filter(isShown);
  }

  // Returns red, green, blue and opacity, each from 0 to 1.
  function colour(text) {
    const [red, green, blue, opacity = 1] = text.match(/[\d.]+(e[-+]?\d+)?/g).map(Number);
    if (/^rgba?\(/.test(text)) return [red / 255, green / 255, blue / 255, opacity];
    if (text.startsWith("color(srgb ")) return [red, green, blue, opacity];
    throw new Error(`no rule knows the colour ${text}`);
  }

  // Returns the colour of one colour over another that is opaque.
  const over = (top, ground) => [0, 1, 2].map((at) => top[at] * top[3] + ground[at] * (1 - top[3])).concat(1);

  // Returns a function from an element to the opaque colour behind its text.
  function grounds() {
    const known = new Map();
    const empty = getComputedStyle(document.documentElement).colorScheme.includes("dark")
      && matchMedia("(prefers-color-scheme: dark)").matches ? [0.07, 0.07, 0.07, 1] : [1, 1, 1, 1];
    const ground = (element) => {
      if (!element) return empty;
      if (!known.has(element)) {
        known.set(element, over(colour(getComputedStyle(element).backgroundColor), ground(element.parentElement)));
      }
      return known.get(element);
    };
    return ground;
  }

  const opacity = (element) => element ? getComputedStyle(element).opacity * opacity(element.parentElement) : 1;

  // WCAG, "relative luminance" and "contrast ratio".
  function luminance(parts) {
    const [red, green, blue] = parts.map((it) => it <= 0.03928 ? it / 12.92 : ((it + 0.055) / 1.055) ** 2.4);
    return 0.2126 * red + 0.7152 * green + 0.0722 * blue;
  }

  function ratio(one, other) {
    const [low, high] = [luminance(one), luminance(other)].sort((a, b) => a - b);
    return (high + 0.05) / (low + 0.05);
  }

  // WCAG 1.4.3: at least 4.5, or 3 for text from 24 px, or from 18.66 px if it is bold.
  const leastContrast = (style) => parseFloat(style.fontSize) >= (style.fontWeight >= 700 ? 18.66 : 24) ? 3 : 4.5;

  // Equal styles on equal grounds are judged once.
  function contrast() {
    const ground = grounds();
    const faults = new Map();
    const judge = (element, style) => {
      const behind = ground(element);
      const ink = style.fill && element instanceof SVGElement ? style.fill : style.color;
      const key = [ink, behind, style.fontSize, style.fontWeight].join();
      if (faults.has(key)) return;
      const [red, green, blue, alpha] = colour(ink);
      const found = ratio(over([red, green, blue, alpha * opacity(element)], behind), behind);
      const least = leastContrast(style);
      const fault = `${place(element)}: contrast ${found.toFixed(2)}, and at least ${least} is required`;
      faults.set(key, found < least ? fault : null);
    };
    for (const element of withText()) judge(element, getComputedStyle(element));
    for (const element of all("input, select, textarea")) judge(element, getComputedStyle(element));
    for (const element of all("[placeholder]")) judge(element, getComputedStyle(element, "::placeholder"));
    return named([...faults.values()].filter((it) => it !== null));
  }

  const isRegion = (element) => getComputedStyle(element).overflowX !== "visible";

  const scrolls = (element) => /auto|scroll/.test(getComputedStyle(element).overflowX)
    && element.scrollWidth > element.clientWidth;

  // Returns the elements of the body that are shown, without those in a region that scrolls or hides what is too wide.
  function outsideRegions() {
    const filter = (element) => isRegion(element.parentElement) && element.parentElement !== document.body
      ? NodeFilter.FILTER_REJECT : NodeFilter.FILTER_ACCEPT;
    const walker = document.createTreeWalker(document.body, NodeFilter.SHOW_ELEMENT, filter);
    const found = [];
    while (walker.nextNode()) found.push(walker.currentNode);
    return found.filter(isShown);
  }

  // What scrolls in a region of its own does not widen the page.
  function overflow() {
    const root = document.scrollingElement;
    const faults = root.scrollWidth <= root.clientWidth ? []
      : [`the page is ${root.scrollWidth} px wide, and the window ${root.clientWidth} px`];
    const isBeyond = (element) => {
      const box = element.getBoundingClientRect();
      return box.width && (box.right > root.clientWidth + 1 || box.left < -1);
    };
    const beyond = outsideRegions().filter(isBeyond);
    return named([...faults, ...beyond.map((it) => `${place(it)}: it ends beyond the side of the page`)]);
  }

  // Text that is cut off without a way to scroll to it.
  function clipped() {
    const hides = (value) => value === "hidden" || value === "clip";
    const isClipped = (element) => {
      const style = getComputedStyle(element);
      return hides(style.overflowX) && element.scrollWidth > element.clientWidth + 1
        || hides(style.overflowY) && element.scrollHeight > element.clientHeight + 1;
    };
    return named(all("body *").filter((it) => isClipped(it) && spaced(it.textContent))
      .map((it) => `${place(it)}: its text is cut off`));
  }

  // Returns the elements with text that a picture places: those in it, and those with an absolute position.
  function placed() {
    const isPlaced = (element) => element.closest("svg, figure, [role=img]")
      || getComputedStyle(element).position === "absolute";
    return withText().filter(isPlaced);
  }

  // Lines of text may come close, but no letters may meet.
  function overlaps() {
    const boxes = placed().map((element) => {
      const range = document.createRange();
      range.selectNodeContents(element);
      const box = range.getBoundingClientRect();
      const margin = box.height * 0.15;
      return {element, left: box.left, right: box.right, top: box.top + margin, bottom: box.bottom - margin};
    });
    const meet = (one, other) => one.left < other.right - 1 && other.left < one.right - 1
      && one.top < other.bottom && other.top < one.bottom
      && !one.element.contains(other.element) && !other.element.contains(one.element);
    const pairs = boxes.flatMap((one, at) => boxes.slice(at + 1).filter((it) => meet(one, it)).map((it) => [one, it]));
    return named(pairs.map(([one, other]) => `${place(one.element)} overlaps ${place(other.element)}`));
  }

  // A word in a card, such as a number, is on one line and within the card. A table that does not scroll stays within its
  // section.
  function cards() {
    const isInRegion = (element) => element.localName !== "section" && (isRegion(element) || isInRegion(element.parentElement));
    const isWide = (table) => !isInRegion(table.parentElement)
      && table.getBoundingClientRect().right > table.closest("section").getBoundingClientRect().right;
    const wide = all("section table").filter(isWide).map((table) => `${place(table)}: the table runs over its section`);
    const isBroken = (boxes) => new Set([...boxes].map((box) => Math.round(box.top))).size > 1;
    const faults = all(".card b").flatMap((value) => {
      const card = value.closest(".card").getBoundingClientRect();
      const range = document.createRange();
      return [...value.firstChild.data.matchAll(/\S+/g)].flatMap((word) => {
        range.setStart(value.firstChild, word.index);
        range.setEnd(value.firstChild, word.index + word[0].length);
        const boxes = range.getClientRects();
        if (isBroken(boxes)) return [`${place(value)}: a word is broken`];
        return range.getBoundingClientRect().right > card.right ? [`${place(value)}: a word runs over its card`] : [];
      });
    });
    return named([...faults, ...wide]);
  }

  // WCAG 1.3.1.
  function tables() {
    const scopes = ["col", "row", "colgroup", "rowgroup"];
    const faults = all("table").flatMap((table) => {
      const cells = [...table.querySelectorAll("th")];
      const wrong = cells.filter((it) => !scopes.includes(it.scope)).map((it) => `${place(it)}: it has no scope`);
      const hasColumns = cells.some((it) => it.scope === "col" && it.closest("thead"));
      return hasColumns ? wrong : [...wrong, `${place(table)}: no heading of a column`];
    });
    return named(faults);
  }

  // WCAG 1.3.1 and 2.4.6.
  function headings() {
    const levels = all("h1, h2, h3, h4, h5, h6").map((it) => [Number(it.localName[1]), it]);
    const faults = levels.flatMap(([level, element], at) => {
      const before = at ? levels[at - 1][0] : 0;
      return level > before + 1 ? [`${place(element)}: it follows a heading of level ${before}`] : [];
    });
    const count = levels.filter(([level]) => level === 1).length;
    return count === 1 ? faults : [...faults, `the page has ${count} headings h1`];
  }

  // WCAG 2.4.2 and 3.1.1.
  function page() {
    const viewport = document.querySelector("meta[name=viewport]");
    const faults = {
      "the page has no language": document.documentElement.lang,
      "the page has no title": document.title.trim(),
      "the page does not follow the width of the window": viewport && viewport.content.includes("width=device-width"),
    };
    return Object.keys(faults).filter((it) => !faults[it]);
  }

  function policy() {
    const meta = document.querySelector("head > meta[http-equiv=Content-Security-Policy]");
    if (!meta) return ["the page has no content security policy"];
    const parts = new Map(meta.content.split(";").map((it) => it.trim().split(/\s+(.*)/, 2)));
    const script = parts.get("script-src") ?? "";
    const faults = {
      "default-src is not 'none'": parts.get("default-src") === "'none'",
      "base-uri is not 'none'": parts.get("base-uri") === "'none'",
      "form-action is not 'none'": parts.get("form-action") === "'none'",
      "script-src allows more than texts of known hash": /^('none'|('sha256-[^']+' ?)+)?$/.test(script),
    };
    return Object.keys(faults).filter((it) => !faults[it]);
  }

  // A region that scrolls sideways must be reached by the keyboard: WCAG 2.1.1.
  function regions() {
    const isNamed = (it) => it.getAttribute("aria-label") || it.getAttribute("aria-labelledby");
    return named(all("body *").filter(scrolls)
      .filter((it) => it.tabIndex < 0 || !it.hasAttribute("tabindex") || !it.hasAttribute("role") || !isNamed(it))
      .map((it) => `${place(it)}: it scrolls, and has no tabindex, role and name`));
  }

  const isHidden = (element) => element.closest("[aria-hidden=true]");

  // WCAG 1.3.1 and 3.3.2. A placeholder is gone once something is typed.
  function labels() {
    const isField = (it) => !["hidden", "submit", "button", "reset", "image"].includes(it.type);
    const isLabelled = (it) => it.getAttribute("aria-labelledby") || (it.getAttribute("aria-label") ?? "").trim()
      || [...it.labels].some((label) => spaced(label.textContent));
    const fields = [...document.querySelectorAll("input, select, textarea")].filter(isField);
    return named(fields.filter((it) => !isLabelled(it)).map((it) => `${place(it)} "${it.name}": it has no label`));
  }

  // What a label or a link names must be one element.
  function ids() {
    const seen = new Set();
    const isTwice = (it) => seen.has(it.id) || !seen.add(it.id);
    const referring = ["for", "aria-labelledby", "aria-describedby"];
    const unknown = [...document.querySelectorAll(referring.map((it) => `[${it}]`).join())].flatMap((element) => referring
      .flatMap((it) => (element.getAttribute(it) ?? "").split(/\s+/)).filter((it) => it && !document.getElementById(it))
      .map((it) => `${place(element)}: there is no element ${it}`));
    const twice = [...document.querySelectorAll("[id]")].filter(isTwice).map((it) => `${place(it)}: its id is not its own`);
    return named([...twice, ...unknown]);
  }

  // Returns the pictures and controls that a screen reader must name. A part of a picture needs no name.
  const toName = () => [
    ...all(DRAWN).filter((it) => !isHidden(it) && !it.parentElement.closest("[role=img]")),
    ...all(CONTROLS).filter((it) => it.tabIndex >= 0 && !isHidden(it))];

  // Pictures and controls need a name, as the browser computes it: WCAG 1.1.1 and 4.1.2.
  function names() {
    return named(toName().filter((it) => !it.computedName.trim()).map((it) => `${place(it)}: it has no name`));
  }

  // Returns parts of tables with the role of each, which it must keep whatever its display is.
  const partsOfTables = () => all("table").flatMap((table) => [
    ["table", table], ["row", table.querySelector("tbody tr")],
    ["columnheader", table.querySelector("th[scope=col]")], ["cell", table.querySelector("tbody td")],
  ]).filter(([, element]) => element && isShown(element));

  // The browser must tell a screen reader that parts of tables are such: WCAG 1.3.1.
  function roles() {
    return named(partsOfTables().filter(([role, element]) => element.computedRole !== role)
      .map(([role, element]) => `${place(element)}: its role is ${element.computedRole}, not ${role}`));
  }

  // Of a group of choices Tab reaches the chosen one, and arrows the others.
  const isOther = (it) => it.type === "radio" && !it.checked
    && [...document.getElementsByName(it.name)].some((other) => other.form === it.form && other.checked);

  const toReach = () => all(CONTROLS).filter((it) => it.tabIndex >= 0 && !it.disabled && !isOther(it));

  // Returns how an element looks at its edge, which must change if it has the focus.
  function edge(element) {
    const style = getComputedStyle(element);
    const isOutlined = style.outlineStyle !== "none";
    const outline = isOutlined ? [style.outlineStyle, style.outlineWidth, style.outlineColor] : "none";
    return [outline, style.boxShadow, style.borderColor, style.backgroundColor].join(" ");
  }

  // Notes which controls get the focus from now on, and returns how many there are.
  function watch() {
    // The next Tab begins at the top, and nothing has a focus by which its edge is another.
    document.body.tabIndex = -1;
    document.body.focus();
    document.activeElement.blur();
    document.body.removeAttribute("tabindex");
    const edges = new Map(toReach().map((it) => [it, edge(it)]));
    const isSeen = new Map();
    document.addEventListener("focusin", ({target}) => isSeen.set(target, edge(target) !== edges.get(target)));
    const fault = (it) => isSeen.has(it) ? "its focus is not seen" : "Tab does not reach it";
    window.unreached = (most) => named([...edges.keys()].slice(0, most).filter((it) => !isSeen.get(it))
      .map((it) => `${place(it)}: ${fault(it)}`));
    return edges.size;
  }

  return {place, overflow, clipped, overlaps, cards, contrast, tables, headings, page, policy, regions, labels, ids, names, roles,
    watch};
})();
