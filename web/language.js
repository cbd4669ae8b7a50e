// The language of the page: the browser's, or the one that was chosen by the switch. The modules have their texts in
// English; each other language has a file of words, by the English text, with {} where a value stands.

const LANGUAGES = {en: 'English', de: 'Deutsch'};
const KEPT = 'goo/language';

/** What was chosen in this browser before. */
function kept() {
  try { return localStorage.getItem(KEPT); } catch { return null; }
}

export const language = [kept(), ...navigator.languages.map((of) => of.slice(0, 2)), 'en'].find((of) => Object.hasOwn(LANGUAGES, of));
const words = language === 'en' ? {} : (await import(`./words-${language}.js`)).WORDS;
document.documentElement.lang = language;
if (language !== 'en') for (const e of document.querySelectorAll('.skip, .house, .top .facts, .quiet')) e.textContent = words[e.textContent] ?? e.textContent;      // what the page itself has
if (language !== 'en') for (const e of document.querySelectorAll('[aria-label]')) e.ariaLabel = words[e.ariaLabel] ?? e.ariaLabel;
if (language !== 'en') document.title = words[document.title] ?? document.title;

/** Texts that the file of words lacks. */
export const missing = new Set();

/** A text in the reader's language: t`${n} lots`, or t(text). */
export function t(text, ...values) {
  const key = typeof text === 'string' ? text : text.join('{}');
  if (language !== 'en' && !Object.hasOwn(words, key)) missing.add(key);
  return (Object.hasOwn(words, key) ? words[key] : key).split('{}').map((part, i) => (i ? String(values[i - 1]) : '') + part).join('');
}

/** A text in the reader's language where it is one of the page's own; else as it is. */
export const known = (text) => Object.hasOwn(words, text) ? words[text] : text;

/** The other languages, each with what chooses it. */
export const others = () => Object.entries(LANGUAGES).filter(([of]) => of !== language).map(([of, name]) => [name, () => {
  try { localStorage.setItem(KEPT, of); } catch { /* it is chosen for this time alone */ }
  location.reload();
}]);
