// The users whom the reader may see, fifty at a time, with their servers.
import {ask, path, serverPath, start} from './hub.js'
import {button, field, lines, make, moment, section, table} from './dom.js'
import {carry, sends, sure, tell, why} from './frame.js'
import {pages} from './pages.js'
import {say} from './texts.js'
import {enters, holds, runs} from './rights.js'
import site from './site.js'

const faults = {'live servers': 'people.live', spawner: 'home.spawner', 'pending stop': 'home.parked'}
const called = server => server || say('home.default')
let me, rights = {}, list

const again = () => list.again()

function act(label, style, spoken, job) {
  return button(label, style, event => carry(event.target, async () => {
    const done = await job()
    await again()
    return done
  }, faults), spoken)
}

function liveServer(user, server, its) {
  const line = make('div', {class: 'buttons', 'data-server': user + '/' + server})
  const state = its.pending ?? (its.ready ? 'ready' : 'spawn')
  line.append(make('span', {}, called(server)), make('span', {class: 'badge state-' + state}, say('home.state.' + state)))
  return line
}

function openLink(user, server, its) {
  const spoken = say('home.open.of', {server: its.url})
  return make('a', {href: site.servers + its.url, class: 'btn btn-primary', 'aria-label': spoken}, say('home.open'))
}

function stopButton(name, server) {
  return act(say('home.stop'), 'btn-outline-danger', say('home.stop.of', {server: name + '/' + server}), async () => {
    await ask('DELETE', serverPath(name, server))
    return say('people.stopped', {name, server: called(server)})
  })
}

function startButton(name) {
  return act(say('home.start'), 'btn-primary', say('home.start.of', {server: name + '/'}), async () => {
    await start(name, '', () => tell(say('working')))
    return say('people.started', {name})
  })
}

/** The buttons of a user's servers: they come once it is known that the reader may press them. */
async function fillServers(cell, user) {
  const servers = Object.entries(user.servers), may = await runs(me, user.name)
  for (const [server, its] of servers) {
    const line = cell.querySelector(`[data-server="${CSS.escape(user.name + '/' + server)}"]`)
    if (its.ready && (me.admin || await enters(me, user.name, server))) line.append(openLink(user.name, server, its))
    if (may) line.append(stopButton(user.name, server))
  }
  if (may && !user.servers['']) cell.append(startButton(user.name))
}

function adminButton(user) {
  const name = user.name, spoken = `${say(user.admin ? 'people.admin.take' : 'people.admin.make')}: ${name}`
  return button(say(user.admin ? 'people.admin.take' : 'people.admin.make'), 'btn-outline-secondary', async event => {
    if (!user.admin && !await sure(say('people.admin.sure', {name}), say('people.admin.make'))) return
    carry(event.target, async () => {
      await ask('PATCH', path('users', name), {admin: !user.admin})
      await again()
      return say(user.admin ? 'people.admin.taken' : 'people.admin.made', {name})
    })
  }, spoken)
}

function deleteButton(name) {
  return button(say('people.delete.user'), 'btn-outline-danger', async event => {
    if (await sure(say('people.delete.sure', {name}), say('people.delete.user'))) carry(event.target, async () => {
      await ask('DELETE', path('users', name))
      await again()
      return say('people.deleted', {name})
    }, {'live servers': say('people.live', {name})})
  }, `${say('people.delete.user')}: ${name}`)
}

/** What can be done with a user beside their servers: made once somebody opens it, since a page has fifty of these. */
function more(user) {
  if (user.name == me.name) return ''
  const opened = make('summary', {'aria-label': say('people.more', {name: user.name})}, say('people.more.short'))
  const does = make('div', {class: 'buttons'}), made = make('details', {}, opened, does)
  const fill = () => does.append(...[rights.change && adminButton(user), rights.remove && deleteButton(user.name)].filter(it => it))
  made.addEventListener('toggle', fill, {once: true})
  return made
}

function userRow(user) {
  const servers = make('td', {}, ...Object.entries(user.servers ?? {}).map(([server, its]) => liveServer(user.name, server, its)))
  const name = make('th', {scope: 'row'}, user.name, user.admin && ' ', user.admin && make('span', {class: 'badge'}, say('people.admin')))
  const cells = [(user.groups ?? []).join(', '), 'last_activity' in user ? moment(user.last_activity) : '']
  const does = (rights.change || rights.remove) && make('td', {}, more(user))
  const made = make('tr', {'data-user': user.name}, name, ...cells.map(cell => make('td', {}, cell)), servers, does)
  if (user.servers) fillServers(servers, user).catch(fault => tell(why(fault), true))
  return made
}

function draw(users) {
  const columns = ['name', 'groups', 'active', 'servers', ...(rights.change || rights.remove ? ['do'] : [])]
  return table(say('people.users'), columns.map(name => say('people.col.' + name)), users.map(userRow), 'people')
}

function add() {
  const written = {class: 'form-control', autocapitalize: 'none', spellcheck: 'false'}
  const names = make('textarea', {rows: 4, name: 'names', required: true, ...written})
  const admin = make('input', {type: 'checkbox', class: 'form-check-input', id: 'as-admins'})
  const press = make('button', {class: 'btn btn-primary'}, say('people.add.do'))
  const done = async () => {
    const made = await ask('POST', '/users', {usernames: [...new Set(lines(names))], admin: admin.checked})
    names.value = ''
    await again()
    return say('people.added', {count: made.length, names: made.map(its => its.name).join(', ')})
  }
  const label = make('label', {for: 'as-admins', class: 'form-check-label'}, say('people.add.admin'))
  const tick = make('div', {class: 'form-check'}, admin, label)
  const fields = [field(say('people.add.names'), names, say('people.add.login')), tick]
  const form = make('form', {class: 'card narrow', onsubmit: sends(press, done, {409: 'people.all'})}, ...fields, press)
  return section(say('people.add'), form)
}

export async function fill(panel, reader) {
  me = reader
  list = pages('/users', draw, true)
  const [change, remove] = await Promise.all(['admin:users', 'delete:users'].map(right => holds(right, me)))
  rights = {change, remove}
  panel.replaceChildren(...list.parts, rights.change ? add() : '')
  await list.first()
}
