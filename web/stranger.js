// The front page for whoever is not signed in: anybody may check a document, and users sign in.

import {h} from './dom.js';
import {t} from './language.js';

document.getElementById('view').replaceChildren(h('h1', {}, t`Registry of guarantees of origin`),
  h('p', {class: 'lead'}, t`Does somebody show you a document of this registry? Anybody can check it.`),
  h('div', {class: 'buttons'}, h('a', {class: 'button', href: 'verify.html'}, t`Check a cancellation document`), h('a', {class: 'button', href: './'}, t`Sign in`)),
  h('p', {class: 'quiet'}, t`Nobody is signed in. The rest of the registry is for its holders and its issuing body.`));
