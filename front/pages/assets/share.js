// Who may enter the reader's servers: people, groups, and codes that end.
import {all, ask, path} from './hub.js'
import {button, choice, field, input, lives, make, moment, row, secret, section, table} from './dom.js'
import {carry, frame, main, menu, reader, sends, sure, tell} from './frame.js'
import {say} from './texts.js'
import {holds} from './rights.js'

const faults = {'no recipient': 'share.norecipient'}
const called = server => server || say('home.default')
const list = make('div', {}), codes = make('div', {}), fresh = make('div', {role: 'status'})
let me, server = '', may = false

const at = kind => path(kind, me.name) + '/' + encodeURIComponent(server)

function rights(scopes) {
  return say(scopes.some(scope => scope.startsWith('servers!')) ? 'share.right.start' : 'share.right.access')
}

function shareRow(share) {
  const who = share.user ?? share.group, recipient = share.user ? {user: who} : {group: who}
  const take = may && button(say('share.takeback'), 'btn-outline-danger', event => carry(event.target, async () => {
    await ask('PATCH', at('shares'), recipient)
    await draw()
    return say('share.taken', {who, server: called(server)})
  }), say('share.takeback.of', {who}))
  return row(who, say(share.user ? 'share.user' : 'share.group'), rights(share.scopes), moment(share.created), take || '')
}

function codeRow(code) {
  const ended = Date.parse(code.expires_at) <= Date.now()
  const take = may && button(say('delete'), 'btn-outline-danger', event => carry(event.target, async () => {
    await ask('DELETE', at('share-codes') + '?id=' + code.id)
    await draw()
    return say('share.code.deleted')
  }), say('share.code.delete', {id: code.id}))
  const until = say(ended ? 'share.ended' : 'share.until', {moment: moment(code.expires_at)})
  return row(say('share.code.number', {id: code.id}), until, take || '')
}

async function draw() {
  const [shares, made] = await Promise.all([all(at('shares')), all(at('share-codes'))])
  const heads = ['share.name', 'share.kind', 'share.rights', 'share.since', 'people.col.do'].map(name => say(name))
  list.replaceChildren(shares.length ? table(say('share.list'), heads, shares.map(shareRow)) : make('p', {}, say('share.list.none')))
  const columns = [say('share.codes'), say('tokens.col.ends'), say('people.col.do')]
  codes.replaceChildren(made.length ? table(say('share.codes'), columns, made.map(codeRow)) : make('p', {}, say('share.codes.none')))
}

function letIn() {
  const kind = choice([['user', say('share.user')], ['group', say('share.group')]], 'user', {name: 'kind'})
  const name = input({name: 'name', required: true, autocapitalize: 'none'})
  const what = choice([['access', say('share.right.access')], ['start', say('share.right.start')]], 'access', {name: 'rights'})
  const press = make('button', {class: 'btn btn-primary'}, say('share.do'))
  const done = async () => {
    const who = name.value.trim(), its = `!server=${me.name}/${server}`
    const scopes = what.value == 'start' ? ['access:servers' + its, 'servers' + its] : ['access:servers' + its]
    await ask('POST', at('shares'), {[kind.value]: who, scopes})
    name.value = ''
    await draw()
    return say('share.done', {who, server: called(server)})
  }
  const fields = [field(say('share.kind'), kind), field(say('share.name'), name), field(say('share.rights'), what)]
  return make('form', {class: 'line', onsubmit: sends(press, done, faults)}, ...fields, press)
}

function newCode() {
  const life = lives([3600, 86400, 604800, 2592000], 86400)
  const press = make('button', {class: 'btn btn-primary'}, say('share.code.make'))
  const done = async () => {
    const {code} = await ask('POST', at('share-codes'), {expires_in: Number(life.value)})
    const link = location.origin + '/#code=' + code
    fresh.replaceChildren(secret(say('share.code.new'), code, tell), secret(say('share.code.link'), link, tell))
    await draw()
    return ''
  }
  return make('form', {class: 'line', onsubmit: sends(press, done)}, field(say('share.code.ends'), life), press)
}

function takeAll() {
  return button(say('share.all'), 'btn-outline-danger', async event => {
    if (!await sure(say('share.all.sure', {server: called(server)}), say('share.all'))) return
    carry(event.target, async () => {
      for (const kind of ['shares', 'share-codes']) await ask('DELETE', at(kind))
      fresh.replaceChildren()
      await draw()
      return say('share.list.none')
    })
  })
}

async function servers() {
  const kept = JSON.parse(localStorage.getItem('servers of ' + me.name) ?? '[]')
  const names = ['', ...new Set([...Object.keys(me.servers ?? {}), ...kept])].filter((name, place) => name || !place)
  const chosen = choice(names.map(name => [name, called(name)]), server, {name: 'server'})
  chosen.addEventListener('change', () => { server = chosen.value; fresh.replaceChildren(); draw() })
  return field(say('share.server'), chosen)
}

export async function show() {
  frame(say('share.title'))
  me = await reader()
  menu(me)
  server = new URLSearchParams(location.search).get('server') ?? ''
  may = await holds('shares', me)
  main.append(make('p', {}, say('share.intro')), await servers())
  main.append(section(say('share.list'), list, ...(may ? [letIn()] : [])))
  main.append(section(say('share.codes'), make('p', {}, say('share.codes.intro')), codes, ...(may ? [newCode(), fresh, takeAll()] : [])))
  await draw()
}
