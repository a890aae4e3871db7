// Texts that the lanes cut are shown whole while the pointer is on them, or they have the focus.

function hideWhole() {
  find("whole").hidden = true;
}

/** Shows a text over the lanes from a place on, in lines as wide as there is room. */
function showWhole(text, left, top) {
  const box = find("whole");
  const room = find("lanes").getBoundingClientRect();
  const panel = box.parentElement.getBoundingClientRect();
  box.textContent = text;
  box.hidden = false;
  box.style.left = `${left + room.left - panel.left}px`;
  box.style.maxWidth = `${room.width - left - 4}px`;
  const most = Math.max(0, panel.height - box.offsetHeight - 2);
  box.style.top = `${Math.min(most, top + room.top - panel.top)}px`;
}

/** What an element gets whose text is cut: attributes and listeners. */
function shownWhole(text, left, top) {
  const show = () => showWhole(text, left, top);
  return { tabindex: 0, "aria-label": text, onmouseenter: show, onmouseleave: hideWhole,
    onfocus: show, onblur: hideWhole };
}
