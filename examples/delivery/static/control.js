// Draws the page anew every ten seconds, but not while somebody types in it or has chosen something.
"use strict";
{
  const isTouched = field => field === document.activeElement ||
    (field.tagName === "SELECT" ? [...field.options].some(one => one.selected !== one.defaultSelected && field.value) : field.value !== field.defaultValue);

  setInterval(() => {
    if (![...document.querySelectorAll("main input, main select")].some(isTouched)) location.reload();
  }, 10000);
}
