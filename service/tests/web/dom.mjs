// What the modules of the page use of a browser, for node: elements that hold attributes, children
// and listeners. Chromium runs the same tests over its own.

class Node {
  constructor(tag) {
    Object.assign(this, {tagName: tag.toUpperCase(), named: new Map(), childNodes: [], heard: {}});
  }
  append(...nodes) { this.childNodes.push(...nodes.map((of) => of instanceof Node ? of : String(of))); }
  replaceChildren(...nodes) { this.childNodes = []; this.append(...nodes); }
  setAttribute(name, value) { this.named.set(name, String(value)); }
  getAttribute(name) { return this.named.get(name) ?? null; }
  addEventListener(name, act) { (this.heard[name] ??= []).push(act); }
  dispatchEvent(event) { (this.heard[event.type] ?? []).forEach((act) => act(event)); return true; }
  click() { this.dispatchEvent({type: 'click', target: this}); }
  get children() { return this.childNodes.filter((of) => of instanceof Node); }
  get textContent() { return this.childNodes.map((of) => of.textContent ?? of).join(''); }
  set textContent(text) { this.childNodes = [String(text)]; }
  get className() { return this.getAttribute('class') ?? ''; }
  set className(text) { this.setAttribute('class', text); }
  removeAttribute(name) { this.named.delete(name); }
  get name() { return this.getAttribute('name') ?? ''; }
  get type() { return this.getAttribute('type') ?? 'text'; }
  get checked() { return this.named.has('checked'); }
  get elements() { return this.getElementsByTagName('*').filter((of) => ['INPUT', 'SELECT', 'BUTTON'].includes(of.tagName)); }
  contains() { return false; }
  focus() { return null; }
  get value() { return this.typed ?? this.getAttribute('value') ?? ''; }
  set value(text) { this.typed = String(text); }
  getElementsByTagName(tag) {
    return this.children.flatMap((of) => [of, ...of.getElementsByTagName('*')])
      .filter((of) => tag === '*' || of.tagName === tag.toUpperCase());
  }
}

class Kept {
  setItem(name, text) { Object.defineProperty(this, name, {value: String(text), configurable: true, enumerable: true}); }
  getItem(name) { return Object.hasOwn(this, name) ? this[name] : null; }
  removeItem(name) { delete this[name]; }
  clear() { for (const name of Object.keys(this)) delete this[name]; }
}

const put = (name, value) => Object.defineProperty(globalThis, name, {value, configurable: true, writable: true});
const facts = new Node('p');
put('document', Object.assign(new Node('html'), {
  createElement: (tag) => new Node(tag), createElementNS: (_, tag) => new Node(tag), documentElement: {},
  getElementById: () => facts, querySelectorAll: () => [],
}));
put('navigator', {languages: ['en-GB']});
put('localStorage', new Kept());
put('location', {origin: 'https://registry.example', hash: '', search: ''});
put('addEventListener', () => null);
put('removeEventListener', () => null);
put('CustomEvent', globalThis.CustomEvent ?? class { constructor(type, more) { Object.assign(this, {type, ...more}); } });
if (!globalThis.crypto) put('crypto', (await import('node:crypto')).webcrypto);
