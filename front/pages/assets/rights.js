// What the reader may do. The hub tells a token's scopes as it was made with them, and a browser's may do all that its user may: so the
// pages find the rest out by calls that change nothing, whatever the answer. The hub looks at the rights before all else that such a call
// says: 403 where the reader may do this on nothing at all, 404 where not on this object.
import {ask, page, path, Refused} from './hub.js'

/** A name that nobody has: such a call meets the rights first and finds nothing behind them. */
const NOBODY = 'nobody.' + '0'.repeat(40)

/** For each right a call that needs it and can't change anything. */
const calls = {
  'list:users': () => ask('GET', '/users?limit=1'),
  'list:groups': () => ask('GET', '/groups?limit=1'),
  'list:services': () => ask('GET', '/services?limit=1'),
  'admin:roles': () => ask('GET', '/roles?limit=1'),
  'read:shares': me => ask('GET', path('shares', me.name) + '?limit=1'),
  // a share that is taken from nobody
  'shares': me => ask('PATCH', path('shares', me.name) + '/', {user: NOBODY}),
  // users that are there already aren't made again
  'admin:users': me => ask('POST', '/users', {usernames: [me.name]}),
  'delete:users': () => ask('DELETE', path('users', NOBODY)),
  // no group is made with a member that isn't there
  'admin:groups': () => ask('POST', path('groups', NOBODY), {users: [NOBODY]}),
  'delete:groups': () => ask('DELETE', path('groups', NOBODY)),
  'admin:services': () => ask('DELETE', path('services', NOBODY)),
}

/** The messages by which a call is refused that the reader may make. */
const allowed = /^(no recipient|exists: |unknown user |default server)/

async function may(call, anywhere) {
  try { await call() } catch (fault) {
    if (!(fault instanceof Refused) || fault.status == 0 || fault.status > 499) throw fault
    return allowed.test(fault.message) || anywhere && fault.status == 404
  }
  return true
}

const known = new Map()

function once(key, find) {
  if (!known.has(key)) known.set(key, find())
  return known.get(key)
}

/** Whether the reader holds a right: for `delete:..` on anything at all. */
export const holds = (right, me) => me.admin ? true : once(right, () => may(() => calls[right](me), right.startsWith('delete:')))

/** The names that a list of the hub shows to the reader, none where there is no such list for them. */
export const listed = (kind, me) => once(kind, async () => {
  if (!await holds('list:' + kind, me)) return []
  return (await page('/' + kind, 0, 200)).items.map(its => its.name)
})

/** Whether the reader may stop a user's server, and so start it where it is seen: a default server is never removed. */
export const runs = (me, user) => me.admin || user == me.name ? true : once('runs ' + user, () =>
  may(() => ask('DELETE', path('users', user) + '/server?probe', {remove: true})))

/** Whether the reader may enter a server. */
export const enters = async (me, user, server) => user == me.name
  || (await ask('GET', '/user?for=' + encodeURIComponent(user + '/' + server))).access

/** Whether the reader may put users into a group and take them out. */
export const fills = (me, group) => me.admin ? true : once('fills ' + group, () =>
  may(() => ask('DELETE', path('groups', group, 'users'), {users: [NOBODY]})))
