"use strict";

// Moments in the viewer's zone.
const form = new Intl.DateTimeFormat(undefined, { dateStyle: "medium", timeStyle: "medium" });

function told(seconds) {
  return form.format(new Date(seconds * 1000));
}

for (const it of document.querySelectorAll("time[data-seconds]")) {
  const seconds = Number(it.dataset.seconds);
  if (seconds < 8.64e12) {
    it.title = it.textContent;
    it.textContent = told(seconds);
  }
}

// The slider: its place is that of a moment in the list of changes, and the last place is now.
const slider = document.getElementById("moments");
if (slider) {
  const shown = document.getElementById("moment-shown");
  let asked = 0;
  let chosen = null;

  const place = async () => {
    const number = ++asked;
    const answer = await fetch("/moment?index=" + slider.value);
    const { moment } = await answer.json();
    if (number !== asked) {
      return;
    }
    chosen = { place: slider.value, moment };
    shown.textContent = moment === null ? "Now" : told(moment);
    slider.setAttribute("aria-valuetext", shown.textContent);
  };

  const go = async () => {
    if (!chosen || chosen.place !== slider.value) {
      await place();
    }
    const words = new URLSearchParams({ path: slider.dataset.path });
    if (chosen.moment !== null) {
      words.set("at", chosen.moment);
    }
    if (slider.dataset.deleted) {
      words.set("deleted", "1");
    }
    location.assign("/?" + words);
  };

  // By keys a viewer passes over many moments: the page follows when he stops.
  let later = 0;
  slider.setAttribute("aria-valuetext", shown.textContent);
  slider.addEventListener("input", () => {
    place();
    clearTimeout(later);
  });
  slider.addEventListener("change", () => {
    clearTimeout(later);
    later = setTimeout(go, 500);
  });
}
