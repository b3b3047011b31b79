// The reader's own servers, what others share, and codes.
import {all, ask, path, serverPath, start} from './hub.js'
import {button, field, input, make, moment, section} from './dom.js'
import {carry, frame, main, menu, reader, sends, tell, why} from './frame.js'
import {say} from './texts.js'
import {holds} from './rights.js'
import site from './site.js'

const faults = {'503': 'home.spawner', spawner: 'home.spawner', 'code unknown': 'home.code.unknown', 'code expired': 'home.code.expired',
  'pending stop': 'home.parked'}
const called = server => server || say('home.default')
const servers = make('div', {class: 'cards'}), shared = make('div', {})
let me, shares = [], mayShare = false

/** The hub lists servers that run. Those that don't are remembered by this browser, until they are removed. */
const key = () => 'servers of ' + me.name
const remembered = () => JSON.parse(localStorage.getItem(key()) ?? '[]')
const remember = names => localStorage.setItem(key(), JSON.stringify([...new Set(names)].filter(name => name).sort()))

/** Starts a server while its seconds are counted, and leads to it once it is there. */
async function begin(pressed, user, server) {
  const began = Date.now(), shown = make('p', {class: 'progress-line', role: 'status'})
  let words = 'home.starting'
  const count = () => { shown.textContent = say(words, {seconds: Math.round((Date.now() - began) / 1000)}) }
  const clock = setInterval(count, 1000)
  pressed.after(shown)
  count()
  await carry(pressed, async () => {
    await start(user, server, () => { words = 'home.waiting' })
    return say('home.started', {server: called(server)})
  }, faults)
  clearInterval(clock)
  shown.remove()
  await draw()
  document.querySelector(`[data-open="${user}/${server}"]`)?.focus()
}

function open(user, server, url) {
  const spoken = say('home.open.of', {server: user == me.name ? called(server) : url})
  const attributes = {class: 'btn btn-primary', href: site.servers + url, 'aria-label': spoken, 'data-open': user + '/' + server}
  return make('a', attributes, say('home.open'))
}

function stop(user, server) {
  return button(say('home.stop'), 'btn-outline-danger', event => carry(event.target, async () => {
    await ask('DELETE', serverPath(user, server))
    await draw()
    return say('home.stopped', {server: called(server)})
  }, faults), say('home.stop.of', {server: called(server)}))
}

function starts(user, server) {
  const spoken = say('home.start.of', {server: called(server)})
  return button(say('home.start'), 'btn-primary', event => begin(event.target, user, server), spoken)
}

function remove(server) {
  return button(say('home.remove'), 'btn-outline-danger', event => carry(event.target, async () => {
    await ask('DELETE', serverPath(me.name, server), {remove: true})
    remember(remembered().filter(name => name != server))
    await draw()
    return say('home.removed', {server})
  }, faults), say('home.remove.of', {server}))
}

/** Who may enter a server beside its owner. */
function access(server) {
  const names = shares.filter(share => share.server == me.name + '/' + server).map(share => share.user ?? share.group)
  const spoken = say('home.share.of', {server: called(server)})
  const change = make('a', {href: '/share?server=' + encodeURIComponent(server), 'aria-label': spoken}, say('home.change'))
  return make('p', {}, say('home.access', {who: names.join(', ') || say('nobody')}), ' ', mayShare && change)
}

function card(server, live) {
  const state = live ? live.pending ?? (live.ready ? 'ready' : 'spawn') : 'stopped'
  const badge = make('span', {class: 'badge state-' + state}, say('home.state.' + state))
  const does = make('div', {class: 'buttons'})
  if (state == 'ready') does.append(open(me.name, server, live.url), stop(me.name, server))
  else if (live) does.append(stop(me.name, server))
  else does.append(starts(me.name, server), server ? remove(server) : '')
  const told = live?.started && make('p', {}, say('home.since', {moment: moment(live.started)}),
    live.last_activity ? ' ' + say('home.used', {moment: moment(live.last_activity)}) : '')
  const parts = [make('h2', {}, called(server), ' ', badge), told, access(server), does]
  return make('article', {class: 'card', 'data-server': server}, ...parts)
}

function sharedCard(share) {
  const [owner, server] = share.server.split('/'), runs = share.scopes.some(scope => scope.startsWith('servers!'))
  const title = say('home.shared.of', {server: server || say('home.shared.default'), owner})
  const does = [open(owner, server, '/user/' + share.server), runs && starts(owner, server), runs && stop(owner, server)]
  return make('article', {class: 'card', 'data-shared': share.server}, make('h3', {}, title), make('div', {class: 'buttons'}, ...does))
}

async function draw(told) {
  me = told ?? await reader()
  const live = me.servers ?? {}
  const lists = [path('shares', me.name), path('users', me.name, 'shared')].map(list => all(list).catch(() => []))
  const [own, given, may] = await Promise.all([...lists, holds('shares', me)])
  shares = own
  mayShare = may
  remember([...remembered(), ...Object.keys(live)])
  servers.replaceChildren(...['', ...remembered()].map(server => card(server, live[server])))
  shared.replaceChildren(...given.map(sharedCard))
  if (!given.length) shared.append(make('p', {}, say('home.shared.none')))
  if (Object.values(live).some(its => its.pending)) setTimeout(() => draw().catch(fault => tell(why(fault), true)), 2000)
}

function another() {
  const name = input({name: 'server', pattern: '[a-z0-9][a-z0-9._@\\-]*', maxlength: 64, required: true, autocapitalize: 'none'})
  const press = make('button', {class: 'btn btn-outline-primary'}, say('home.start'))
  const sent = event => { event.preventDefault(); begin(press, me.name, name.value.trim()).then(() => { name.value = '' }) }
  return make('form', {class: 'line', onsubmit: sent}, field(say('home.another.name'), name, say('home.another.help')), press)
}

function useCode() {
  const code = input({name: 'code', required: true, class: 'form-control font-monospace', value: location.hash.replace(/^#(code=)?/, '')})
  const press = make('button', {class: 'btn btn-outline-primary'}, say('home.code.use'))
  const used = async () => {
    const share = await ask('POST', path('users', me.name, 'shared'), {code: code.value.trim()})
    code.value = ''
    await draw()
    return say('home.code.used', {server: share.server})
  }
  return make('form', {class: 'line', onsubmit: sends(press, used, faults)}, field(say('home.code'), code), press)
}

export async function show() {
  frame(say('home.title'))
  me = await reader()
  menu(me)
  const rest = [section(say('home.another'), another()), section(say('home.shared'), shared, useCode())]
  main.append(servers, ...rest)
  await draw(me)
  if (location.hash.startsWith('#code=')) main.querySelector('[name=code]').focus()
}
