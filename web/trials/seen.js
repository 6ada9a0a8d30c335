// What is seen of the page: contrast, marks and boxes. It is run in the page, and gives functions.
(() => {
  const style = (element, pseudo) => getComputedStyle(element, pseudo);
  const box = (element) => element.getBoundingClientRect();
  const all = (selector) => [...document.querySelectorAll(selector)];

  /* ---- contrast, by WCAG */

  const canvas = document.createElement("canvas").getContext("2d", { willReadFrequently: true });

  const parsed = new Map();

  /* The red, green, blue and opacity of a colour. */
  function parse(text) {
    if (!parsed.has(text)) {
      canvas.clearRect(0, 0, 1, 1);
      canvas.fillStyle = text;
      canvas.fillRect(0, 0, 1, 1);
      const [red, green, blue, alpha] = canvas.getImageData(0, 0, 1, 1).data;
      parsed.set(text, [red, green, blue, alpha / 255]);
    }
    return parsed.get(text);
  }

  const over = ([r, g, b, a], [x, y, z]) =>
    [r * a + x * (1 - a), g * a + y * (1 - a), b * a + z * (1 - a), 1];

  const luminance = ([r, g, b]) => [r, g, b].map((part) => part / 255)
    .map((part) => (part <= 0.04045 ? part / 12.92 : ((part + 0.055) / 1.055) ** 2.4))
    .reduce((sum, part, at) => sum + part * [0.2126, 0.7152, 0.0722][at], 0);

  function ratio(one, other) {
    const [low, high] = [luminance(one), luminance(other)].sort((a, b) => a - b);
    return (high + 0.05) / (low + 0.05);
  }

  const WHITE = [255, 255, 255, 1];
  const grounds = new Map();

  /* The colour behind an element's text: of it and what it stands in. */
  function ground(element) {
    if (!grounds.has(element)) {
      const around = element.matches("dialog") ? null : element.parentElement;
      const below = around ? ground(around) : WHITE;
      grounds.set(element, over(parse(style(element).backgroundColor), below));
    }
    return grounds.get(element);
  }

  const nameOf = (element) => element.id || element.className || element.parentElement?.id
    || element.tagName;

  /* The least contrast of each kind of text and of mark. A button that can't be used is left
   * out. */
  class Contrasts {
    constructor() {
      this.found = new Map();
    }

    add(name, ink, below) {
      const value = ratio(over(parse(ink), below), below);
      if (!(this.found.get(name) <= value)) this.found.set(name, value);
    }

    addTexts(element) {
      const hasText = [...element.childNodes].some((node) =>
        node.nodeType === Node.TEXT_NODE && node.data.trim() !== "");
      if (hasText || element.matches("select, textarea, input[type=text]")) {
        this.add(`text ${nameOf(element)}`, style(element).color, ground(element));
      }
      if (element.placeholder && element.value === "") {
        const { color } = style(element, "::placeholder");
        this.add(`placeholder ${nameOf(element)}`, color, ground(element));
      }
      for (const pseudo of ["::before", "::after"]) {
        const { content, color } = style(element, pseudo);
        if (/^".+"$/.test(content)) this.add(`${pseudo} ${nameOf(element)}`, color, ground(element));
      }
    }

    addMarks(selector, colour, isOnItself = false) {
      for (const element of all(selector)) {
        const below = ground(isOnItself ? element : element.parentElement);
        this.add(`mark ${selector}`, colour(element), below);
      }
    }

    /* The number of a line stands over its bar, which is no part of what it stands in. */
    addCounts() {
      for (const line of all(".line")) {
        const [bar, count] = line.lastChild.children;
        const [red, green, blue] = parse(style(bar).backgroundColor);
        const opacity = Number(style(bar).opacity);
        this.add("text count over its bar", style(count).color,
          over([red, green, blue, opacity], ground(line)));
      }
    }
  }

  function contrasts() {
    const seen = new Contrasts();
    for (const element of all("body *")) {
      if (!element.checkVisibility({ visibilityProperty: true })) continue;
      if (!element.closest("option, [aria-disabled=true]")) seen.addTexts(element);
    }
    const fill = (element) => style(element).backgroundColor;
    seen.addMarks(".line.stop .gutter", (at) => style(at, "::before").backgroundColor, true);
    seen.addMarks(".line.pc", (line) => style(line).borderLeftColor);
    seen.addMarks("#mix span", fill);
    seen.addMarks("#counts .bar", fill);
    seen.addMarks("input, select, textarea", (field) => style(field).borderTopColor);
    seen.addMarks(":focus-visible", (at) => style(at).outlineColor);
    seen.addCounts();
    return Object.fromEntries(seen.found);
  }

  /* ---- marks */

  /* Whether the ground of an element can be told from that of another. */
  function differs(one, other) {
    const [first, second] = [one, other].map((selector) =>
      ground(document.querySelector(selector)));
    return ratio(first, second) > 1.05;
  }

  function marks() {
    const of = (selector, pseudo) => style(document.querySelector(selector), pseudo);
    const dot = of(".line.stop .gutter", "::before");
    return {
      dot: [dot.opacity, dot.borderRadius, parseFloat(dot.width) >= 8,
        parseFloat(dot.height) >= 8],
      noDot: of(".line:not(.stop) .gutter", "::before").opacity,
      pc: differs(".line.pc", ".line:not(.pc)"),
      edge: of(".line.pc").borderLeftWidth,
      selected: of(".line.selected").boxShadow.includes("inset"),
      last: differs(".register.last", ".register:not(.last)"),
      bold: of(".register.last .value").fontWeight,
      changed: differs("#memory .changed", "#memory .zero"),
      target: of("#memory .target").boxShadow.includes("inset"),
      output: [of("#output").whiteSpace, of("#output").overflowWrap],
      letters: of("#memory .letters").whiteSpace,
      code: ["#output", ".line", ".register", "#memory", "#text"].every((selector) =>
        of(selector).fontFamily.includes("monospace")),
      disabled: of("[data-action=pause]").opacity < 0.6,
      sticky: of(".controls").position,
      instruction: box(document.querySelector(".line.pc .instruction")).width > 60,
    };
  }

  /* How a stored word is marked: its weight, and whether its ground is another than others'. */
  function storedMark() {
    const stored = "#memory .stored";
    return [style(document.querySelector(stored)).fontWeight, differs(stored, "#memory .zero"),
      differs(stored, "#memory .changed")];
  }

  /* ---- boxes */

  const TEXTS = ".register .value, .register .name, .register .number, #memory th, #memory td,"
    + " .line .address, .line .word, .line .instruction, .line .count, .head h2, button span,"
    + " #heading";
  const AROUND = ".text, td, th, .register, button, .head, .line, .state";

  /* The texts that are cut off, and those outside the page, where nothing scrolls to them. */
  function cutTexts(isHere) {
    return all(TEXTS).filter((element) => {
      if (!isHere(element)) return false;
      const text = document.createRange();
      text.selectNodeContents(element);
      const inner = box(text);
      const outer = box(element.closest(AROUND));
      const isCut = inner.width > 0
        && (inner.right > outer.right + 1 || inner.left < outer.left - 1);
      const { left, right, width } = box(element);
      const isOutside = width > 0 && (left < 0 || right > innerWidth);
      return isCut || (isOutside && !element.closest(".scroll"));
    }).map((element) => `${element.className || element.tagName}: ${element.textContent}`);
  }

  /* The controls outside the page, and those that are too small for a finger. */
  function badControls(isHere) {
    return all("button, select, input:not([hidden])").filter((element) => {
      if (!isHere(element)) return false;
      const { left, right, width, height } = box(element);
      const isSmall = !element.matches("[type=checkbox]") && (width < 24 || height < 24);
      return element.checkVisibility() && (left < 0 || right > innerWidth || isSmall);
    }).map((element) => element.id || element.textContent);
  }

  /* The panels that lie over each other. */
  function overlaps() {
    const panels = all("header, .controls, main > section, footer");
    const areOver = (one, other) => one.left < other.right - 1 && other.left < one.right - 1
      && one.top < other.bottom - 1 && other.top < one.bottom - 1;
    return panels.flatMap((one, at) => panels.slice(at + 1)
      .filter((other) => areOver(box(one), box(other)))
      .map((other) => `${one.className} ${other.className}`));
  }

  /* The parts of a narrow page lie beside each other, and each is brought into view. */
  function boxes() {
    const isWide = document.documentElement.scrollWidth > innerWidth;
    const main = document.getElementById("main");
    const cut = new Set();
    const controls = new Set();
    for (const part of all("main > section")) {
      main.scrollTo({ left: part.offsetLeft - main.offsetLeft, behavior: "instant" });
      const isHere = (element) => !element.closest("main > section") || part.contains(element);
      for (const text of cutTexts(isHere)) cut.add(text);
      for (const control of badControls(isHere)) controls.add(control);
    }
    main.scrollTo({ left: 0, behavior: "instant" });
    return { cut: [...cut], controls: [...controls], overlaps: overlaps(), isWide };
  }

  /* What is higher than its box, where nothing scrolls to the rest. */
  function cutBelow() {
    return all("body *").filter((element) => element.clientHeight > 1
      && element.scrollHeight > element.clientHeight + 1
      && ["hidden", "clip"].includes(style(element).overflowY))
      .map((element) => element.id || element.className || element.tagName);
  }

  /* What of the listing's pc, the registers, the console and the details does not lie in the
   * window. */
  function notInView() {
    const parts = ["section.registers", ".line.pc", "section.console", "#input", "section.details",
      "#memory .target"];
    return parts.filter((selector) => {
      const { top, bottom, left, right } = box(document.querySelector(selector));
      return top < 0 || bottom > innerHeight || left < 0 || right > innerWidth;
    });
  }

  /* How many colours the kinds have, those that are not of their names, how much of a bar of the
   * listing is seen, and what lies over the page behind a dialog. */
  function colours() {
    const probe = document.body.appendChild(document.createElement("i"));
    const colourOf = (name) => {
      probe.style.backgroundColor = name;
      return style(probe).backgroundColor;
    };
    const kinds = all("#mix > span");
    const wrong = kinds.filter((part) =>
      style(part).backgroundColor !== colourOf(`var(--${part.className.replace("of-", "")})`));
    probe.remove();
    const dialog = document.getElementById("help");
    dialog.showModal();
    const behind = style(dialog, "::backdrop").backgroundColor;
    dialog.close();
    const different = new Set(kinds.map((part) => style(part).backgroundColor)).size;
    const bar = document.querySelector(".line .executed .bar");
    return [different, wrong.map((part) => part.className), style(bar).opacity, behind];
  }

  /* ---- how each kind of element looks */

  /* What an element has of its own, where it is not so, and what it has of the one around it. */
  const OWN = {
    backgroundColor: "rgba(0, 0, 0, 0)", textDecorationLine: "none", textDecorationStyle: "solid",
    opacity: "1", boxShadow: "none", borderLeftWidth: "0px", borderLeftColor: null,
    pointerEvents: "auto",
  };
  const INHERITED = ["color", "fontWeight", "fontStyle", "whiteSpace", "overflowWrap", "textAlign",
    "cursor"];

  /* How an element looks, or a part of it: what is other than where nothing is said. */
  function lookOf(own, around) {
    const isOther = ([name, usual]) => usual !== null && own[name] !== usual;
    const parts = Object.entries(OWN).filter(isOther).map(([name]) => own[name]);
    if (own.borderLeftWidth !== "0px") parts.push(own.borderLeftColor);
    parts.push(...INHERITED.filter((name) => own[name] !== around[name]).map((name) => own[name]));
    return parts.join(", ");
  }

  /* What kind of element one is: its name, its classes, and its id where it is one of a kind. */
  function kindOf(element) {
    const { id, className, tagName } = element;
    const isOne = id !== "" && !/^(line-\d+|x\d+|pc)$/.test(id);
    const classes = String(className.baseVal ?? className).split(" ").filter((name) => name);
    return [tagName.toLowerCase(), ...isOne ? [`#${id}`] : [], ...classes.map((name) => `.${name}`)]
      .join("");
  }

  /* Each kind of element that is shown, with how it looks. */
  function looks() {
    const found = new Set();
    for (const element of all("body, body *")) {
      if (!element.checkVisibility() || element.closest("option, svg")) continue;
      const around = style(element.parentElement);
      found.add(`${kindOf(element)}: ${lookOf(style(element), around)}`);
      const parts = ["::before"];
      if (element.placeholder) parts.push("::placeholder");
      if (element.matches("dialog:modal")) parts.push("::backdrop");
      for (const pseudo of parts) {
        const part = style(element, pseudo);
        if (pseudo === "::before" && part.content === "none") continue;
        found.add(`${kindOf(element)}${pseudo}: ${lookOf(part, style(element))}`);
      }
    }
    return [...found];
  }

  /* What is said of the page as a whole, and what each field is, beside its role and its name. */
  function fields() {
    const { documentElement: root, characterSet } = document;
    const viewport = document.querySelector("meta[name=viewport]").content;
    const names = ["type", "wrap", "spellcheck", "autocapitalize", "autocomplete", "placeholder",
      "rows", "size", "maxLength", "readOnly", "required", "autofocus"];
    return [`${root.lang} ${characterSet} ${document.compatMode} ${viewport}`,
      ...all("input, textarea").map((field) => [kindOf(field),
        ...names.filter((name) => field[name] !== undefined && field[name] !== "")
          .map((name) => `${name}=${field[name]}`)].join(" "))];
  }

  return { boxes, colours, contrasts, cutBelow, fields, looks, marks, notInView, storedMark };
})()
