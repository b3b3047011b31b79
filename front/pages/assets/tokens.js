// The reader's tokens: what each may do, when it ends, and new ones.
import {ask, path} from './hub.js'
import {button, field, input, lives, make, moment, row, secret, section, table} from './dom.js'
import {carry, frame, main, menu, reader, sends, sure, tell} from './frame.js'
import {say, texts} from './texts.js'

/** What a token may be made for, each in words of texts.js. The hub refuses what the reader doesn't hold. */
const OFFERED = ['read:users', 'users:activity', 'read:servers', 'servers', 'access:servers', 'read:shares', 'shares']
  .map(action => action + '!user')
const list = make('div', {}), fresh = make('div', {role: 'status'})
let me

function words(scope) {
  const named = 'scope.' + scope, general = 'scope.' + scope.split('!')[0]
  if (named in texts) return say(named)
  return general in texts ? `${say(general)} (${scope.split('!')[1] ?? ''})`.replace(' ()', '') : scope
}

const ended = token => token.expires_at && Date.parse(token.expires_at) <= Date.now()

function tokenRow(token) {
  const note = token.note || (token.oauth_client ? say('tokens.entry', {client: token.oauth_client}) : say('tokens.nonote'))
  const take = button(say('delete'), 'btn-outline-danger', async event => {
    if (await sure(say('tokens.delete.sure'), say('delete'))) carry(event.target, async () => {
      await ask('DELETE', path('users', me.name, 'tokens', String(token.id)))
      await draw()
      return say('tokens.deleted')
    })
  }, say('tokens.delete.of', {id: token.id, note}))
  const until = ended(token) ? say('tokens.ended', {moment: moment(token.expires_at)}) : moment(token.expires_at)
  return row(note, token.scopes.map(words).join(', '), moment(token.created), until, take)
}

async function draw() {
  const {api_tokens: tokens} = await ask('GET', path('users', me.name, 'tokens'))
  tokens.sort((one, other) => other.id - one.id)
  const heads = ['note', 'may', 'made', 'ends'].map(name => say('tokens.col.' + name))
  const rows = tokens.map(tokenRow)
  list.replaceChildren(rows.length ? table(say('tokens.title'), [...heads, say('people.col.do')], rows) : say('tokens.none'))
  const old = tokens.filter(ended)
  if (old.length) list.append(button(say('tokens.clear'), 'btn-outline-secondary', event => carry(event.target, async () => {
    for (const token of old) await ask('DELETE', path('users', me.name, 'tokens', String(token.id)))
    await draw()
    return say('tokens.cleared', {count: old.length})
  })))
}

function box(type, name, value, text, checked) {
  const id = 'may-' + value, made = make('input', {type, name, value, id, checked, class: 'form-check-input'})
  return make('div', {class: 'form-check'}, made, make('label', {for: id, class: 'form-check-label'}, text))
}

function newToken() {
  const note = input({name: 'note', maxlength: 200, required: true}), life = lives([86400, 604800, 2592000, 31536000, 0], 2592000)
  const some = make('div', {class: 'ps-4'}, ...OFFERED.map(scope => box('checkbox', 'scope', scope, words(scope))))
  const may = make('fieldset', {}, make('legend', {}, say('tokens.may')), box('radio', 'may', 'all', say('tokens.all'), true),
    box('radio', 'may', 'some', say('tokens.some')), some)
  // who chooses one of the list means the list
  some.addEventListener('change', () => { may.querySelector('#may-some').checked = true })
  const press = make('button', {class: 'btn btn-primary'}, say('tokens.make'))
  const made = async () => {
    const chosen = [...some.querySelectorAll(':checked')].map(it => it.value), all = may.querySelector('#may-all').checked
    if (!all && !chosen.length) return say('tokens.choose')
    const asked = {note: note.value.trim(), scopes: all ? ['inherit'] : chosen, expires_in: Number(life.value) || null}
    const {token} = await ask('POST', path('users', me.name, 'tokens'), asked)
    fresh.replaceChildren(secret(say('tokens.made'), token, tell))
    note.value = ''
    await draw()
    return ''
  }
  const fields = [field(say('tokens.note'), note), may, field(say('tokens.ends'), life)]
  return make('form', {class: 'card', onsubmit: sends(press, made)}, ...fields, press)
}

export async function show() {
  frame(say('tokens.title'))
  me = await reader()
  menu(me)
  main.append(make('p', {}, say('tokens.intro')), section(say('tokens.new'), newToken(), fresh), section(say('tokens.title'), list))
  await draw()
}
