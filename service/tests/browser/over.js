// What is wider than the box that it stands in.
return [...document.querySelectorAll('main *')].filter(e => e.checkVisibility() && e.parentElement &&
  e.getBoundingClientRect().right > e.parentElement.getBoundingClientRect().right + 1 && !e.closest('svg, thead'))
  .concat(document.documentElement.scrollWidth > innerWidth ? [document.body] : []).map(e => `${e.tagName}.${e.className} ${e.textContent.slice(0, 40)}`);
