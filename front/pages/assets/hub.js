// The hub's REST API, as these pages call it.

/** What the hub refused, with its status and message. */
export class Refused extends Error {
  constructor(status, message) {
    super(message)
    this.status = status
  }
}

const wait = seconds => new Promise(done => setTimeout(done, seconds * 1000))

/** A path of names: each is encoded, so that no name is taken for a part of the path. */
export const path = (...names) => names.map(name => '/' + encodeURIComponent(name)).join('')

/** The path of a server: the default one has the empty name. */
export const serverPath = (user, server) => path('users', user) + (server ? path('servers', server) : '/server')

async function call(method, where, body, headers) {
  const given = {method, headers, cache: 'no-store', body: body === undefined ? undefined : JSON.stringify(body)}
  let reply
  try { reply = await fetch('/hub/' + where, given) } catch { throw new Refused(0, '') }
  const text = await reply.text()
  let said = {}
  try { said = text ? JSON.parse(text) : {} } catch { /* no words of the hub's */ }
  if (!reply.ok) throw new Refused(reply.status, said.message ?? '')
  return said
}

/** A call on the hub. Who isn't signed in any more is sent to sign in. */
export async function ask(method, where, body) {
  try { return await call(method, 'api' + where, body) } catch (fault) {
    if (fault.status == 403 && fault.message == 'no valid token') {
      location.replace('/sign-in?next=' + location.pathname + location.search + location.hash)
      await wait(60)
    }
    throw fault
  }
}

/** Whether somebody is signed in, and who. */
export const whoever = () => call('GET', 'api/user').catch(fault => {
  if (fault.status == 403) return null
  throw fault
})

const begun = new Map()

/** Asks for something before the page that wants it is there. A failure is told to that page, and to nobody before it. */
export function begin(name, asked) {
  asked.catch(() => {})
  begun.set(name, asked)
}

/** What was asked for early: the first who wants it gets it, and later ones nothing, since it may have changed. */
export function early(name) {
  const asked = begun.get(name)
  begun.delete(name)
  return asked
}

/** A page of a list, with how many there are in all. */
export async function page(where, offset, limit) {
  const counted = {Accept: 'application/jupyterhub-pagination+json'}
  const reply = await call('GET', `api${where}?offset=${offset}&limit=${limit}`, undefined, counted)
  return {items: reply.items, total: reply._pagination.total}
}

/** All of a list, a page of 200 after the other. */
export async function all(where) {
  const found = []
  for (;;) {
    const {items, total} = await page(where, found.length, 200)
    found.push(...items)
    if (!items.length || found.length >= total) return found
  }
}

/** A start: it is asked again while the front lets no more of them through. `waits` is told of that. */
export async function start(user, server, waits) {
  for (let tries = 0; ; tries++) {
    try { return await ask('POST', serverPath(user, server)) } catch (fault) {
      if (fault.status != 429 || fault.message != 'too many at once' || tries == 90) throw fault
      waits()
      await wait(2)
    }
  }
}

function basic(name, password) {
  const bytes = new TextEncoder().encode(name + ':' + password)
  return 'Basic ' + btoa(String.fromCharCode(...bytes))
}

/** Signs in by a name and a password, or as whom a front before this one has told. */
export const signIn = (name, password) =>
  call('POST', 'sign-in', undefined, password === null ? {} : {Authorization: basic(name, password)})

export const signOut = () => call('POST', 'sign-out')
