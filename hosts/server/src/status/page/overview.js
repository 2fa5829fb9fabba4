"use strict";
// Reads the page again each second, and replaces the parts that have changed.
const PAUSE = 1000;
const late = document.getElementById("late");

// The new part is scrolled as the old one was, and has the keyboard at the same link.
function replace(part, next) {
    if (next.innerHTML === part.innerHTML) {
        return;
    }
    const scrolled = [...part.querySelectorAll(".wide")].map(it => it.scrollLeft);
    const focused = [...part.querySelectorAll("a")].indexOf(document.activeElement);
    part.innerHTML = next.innerHTML;
    part.querySelectorAll(".wide").forEach((it, place) => { it.scrollLeft = scrolled[place] ?? 0; });
    part.querySelectorAll("a")[focused]?.focus({ preventScroll: true });
}

// A process that stood by and serves now has other parts than before.
function replaceAll(next) {
    const parts = [...document.querySelectorAll("main > section")];
    const others = parts.map(part => next.getElementById(part.id));
    if (others.includes(null) || parts.length !== next.querySelectorAll("main > section").length) {
        document.querySelector("main").replaceWith(next.querySelector("main"));
    } else {
        parts.forEach((part, place) => replace(part, others[place]));
    }
    document.title = next.title;
}

async function read() {
    const answer = await fetch(location.href, { cache: "no-store", signal: AbortSignal.timeout(5000) });
    const next = new DOMParser().parseFromString(await answer.text(), "text/html");
    if (!next.getElementById("head")) {
        throw new Error(answer.statusText);
    }
    // What somebody marks to copy it stays.
    if (getSelection().isCollapsed) {
        replaceAll(next);
    }
}

async function go() {
    try {
        await read();
        late.hidden = true;
    } catch {
        late.hidden = false;
    }
    setTimeout(go, PAUSE);
}

setTimeout(go, PAUSE);
