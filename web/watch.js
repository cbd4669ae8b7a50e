// Not a module, so that it is there even where one of the page's modules isn't: it then says so in place of "Loading".

addEventListener('error', (event) => {
  if (event.target.tagName !== 'SCRIPT') return;
  const view = document.getElementById('view'), told = document.createElement('p');
  told.textContent = 'A part of this page did not come. Load it again; if it stays so, tell the issuing body.'
    + (navigator.language.startsWith('de') ? ' Ein Teil dieser Seite kam nicht. Laden Sie sie neu; bleibt es so, sagen Sie es der ausstellenden Stelle.' : '');
  told.className = 'result bad';
  view.replaceChildren(told);
}, true);
