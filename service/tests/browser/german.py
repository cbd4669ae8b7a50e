"""The page in German: which of its texts have English in them."""
import re

from browser.chromium import Browser

TEXTS = """const found = [];
const walk = document.createTreeWalker(document.body, NodeFilter.SHOW_TEXT);
while (walk.nextNode()) {
  const e = walk.currentNode.parentElement, text = walk.currentNode.data.trim();
  if (text && !e.closest('bdi, button.language, .name, script, noscript')) found.push(text);
}
for (const e of document.querySelectorAll('[aria-label], [title], [data-name]'))
  found.push(...[e.ariaLabel, e.title, e.dataset.name].filter(Boolean));
return [...new Set(found)]"""
ENGLISH = re.compile(
    r'\b(the|and|with|this|that|these|of|from|been|not|were|are|is|by|for|has|have|to|'
    r'certificates?|account|holder|registry|day|row|period|device|count|issued?|held|none|'
    r'cancelled|expired|withdrawn|exported|accepted|refused)\b', re.I)
"""Words that no German text has."""
COLUMNS = ('key', 'device', 'row')
KEPT = re.compile(r'[A-Za-z]*_[a-z_]+|key,device[a-z_,]*|device,account[a-z_,]*|meter read twice|'
                  r'Electrolyser by the mill')
"""Columns of files, and what others wrote."""


def english_in(page: Browser) -> list[str]:
    """Texts on the page that have an English word in them."""
    return [text for text in page.run(TEXTS)
            if text not in COLUMNS and ENGLISH.search(KEPT.sub('', text))]
