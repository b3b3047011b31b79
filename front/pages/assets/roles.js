// Roles: which scopes they give, and to whom. The two that every hub has aren't listed by it.
import {ask, path} from './hub.js'
import {button, field, input, lines, make, row, section, table} from './dom.js'
import {carry, sends, sure} from './frame.js'
import {pages} from './pages.js'
import {say} from './texts.js'

const KINDS = ['users', 'groups', 'services']
const fields = {}
let list

function edit(role) {
  return button(say('roles.edit.short'), 'btn-outline-secondary', () => {
    fields.name.value = role.name
    for (const kind of ['scopes', ...KINDS]) fields[kind].value = role[kind].join('\n')
    fields.name.focus()
  }, say('roles.edit', {role: role.name}))
}

function remove(role) {
  return button(say('delete'), 'btn-outline-danger', async event => {
    if (await sure(say('roles.delete.sure', {role}), say('delete'))) carry(event.target, async () => {
      await ask('DELETE', path('roles', role))
      await list.again()
      return say('roles.deleted', {role})
    })
  }, say('roles.delete.of', {role}))
}

function roleRow(role) {
  const holders = KINDS.flatMap(kind => role[kind]).join(', '), does = make('div', {class: 'buttons'}, edit(role), remove(role.name))
  return row(role.name, make('code', {}, role.scopes.join(', ')), holders || say('nobody'), does)
}

function draw(roles) {
  const heads = ['name', 'scopes', 'holders', 'do'].map(name => say('people.col.' + name))
  return table(say('people.roles'), heads, roles.map(roleRow))
}

function form() {
  fields.name = input({name: 'role', required: true, autocapitalize: 'none'})
  const area = name => make('textarea', {class: 'form-control font-monospace', rows: 3, name, autocapitalize: 'none', spellcheck: 'false'})
  for (const kind of ['scopes', ...KINDS]) fields[kind] = area(kind)
  const press = make('button', {class: 'btn btn-primary'}, say('roles.save'))
  const done = async () => {
    const role = fields.name.value.trim(), body = {}
    for (const kind of ['scopes', ...KINDS]) body[kind] = lines(fields[kind])
    await ask('PUT', path('roles', role), body)
    await list.again()
    return say('roles.saved', {role})
  }
  const parts = ['name', 'scopes', ...KINDS].map(kind => field(say('roles.' + kind), fields[kind]))
  return make('form', {class: 'card', onsubmit: sends(press, done)}, ...parts, press)
}

export async function fill(panel) {
  list = pages('/roles', draw)
  panel.replaceChildren(make('h2', {class: 'visually-hidden'}, say('people.roles')), ...list.parts, section(say('roles.add'), form()))
  await list.first()
}
