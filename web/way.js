// The way in which somebody is signed in: as a user of goo-people, by a session, or by the host's files (a password that the browser asks for, a certificate).

const ME = '/people/v1/me';

/** What goo-people says of whoever is signed in; null where this host keeps its users in files. `leave` goes to another page. */
export const way = {me: null, leave: (to) => location.assign(to)};

/** Asks goo-people who is signed in. False where that is nobody: the browser is then on its way to the page for it. */
export async function findWay() {
  const answer = await fetch(ME, {cache: 'no-store'}).catch(() => null);
  if (answer?.status === 401) return toSignIn();
  way.me = answer?.ok ? await answer.json() : null;
  if (way.me?.way === 'enrol') return toSignIn();
  return true;
}

/** Goes to the page that signs in, which comes back to the page of now: it takes nothing of an address but what stands after its #. */
export function toSignIn() {
  way.leave(`sign-in.html${location.hash}`);
  return false;
}

/** The fields of a request that changes something: what it is, and the word that no page of another site has. */
export const fieldsOf = (kind) => ({'Content-Type': kind, ...(way.me?.csrf ? {'GOO-CSRF': way.me.csrf} : {})});

/** An answer as it came. Where the session is over the browser goes to the page that signs in. */
export function known(answer) {
  if (answer.status === 401 && way.me) toSignIn();
  return answer;
}
