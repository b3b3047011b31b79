// The groups that the reader may see, and who is in them.
import {ask, path} from './hub.js'
import {button, field, input, make, section} from './dom.js'
import {carry, sends, sure, tell, why} from './frame.js'
import {pages} from './pages.js'
import {say} from './texts.js'
import {fills, holds} from './rights.js'

const MOST = 60
const faults = {404: 'groups.unknown', 400: 'groups.unknown'}
let me, rights = {}, list

function member(group, user, may) {
  const take = may && button('×', '', event => carry(event.target, async () => {
    await ask('DELETE', path('groups', group, 'users'), {users: [user]})
    await list.again()
    return say('groups.taken', {user, group})
  }), say('groups.member.take', {user, group}))
  return make('li', {}, user, take)
}

function addMember(group) {
  const name = input({required: true, autocapitalize: 'none', 'aria-label': say('groups.member.of', {group})})
  const press = make('button', {class: 'btn btn-outline-primary'}, say('groups.member.add', {group}))
  const done = async () => {
    const user = name.value.trim()
    await ask('POST', path('groups', group, 'users'), {users: [user]})
    await list.again()
    return say('groups.added', {user, group})
  }
  return make('form', {class: 'line', onsubmit: sends(press, done, faults)}, field(say('groups.member'), name), press)
}

function remove(group) {
  return button(say('delete'), 'btn-outline-danger', async event => {
    if (await sure(say('groups.delete.sure', {group}), say('delete'))) carry(event.target, async () => {
      await ask('DELETE', path('groups', group))
      await list.again()
      return say('groups.deleted', {group})
    })
  }, say('groups.delete.of', {group}))
}

/** A group's card: how many are in it, the first of them by name, and what the reader may change. */
function card(group) {
  const users = group.users ?? [], list = make('ul', {class: 'chips'}), made = make('article', {class: 'card', 'data-group': group.name})
  const draw = may => list.replaceChildren(...users.slice(0, MOST).map(user => member(group.name, user, may)),
    users.length > MOST ? make('li', {}, `… ${users.length}`) : '')
  made.append(make('h3', {}, `${group.name} (${users.length})`), list)
  draw(false)
  const grow = async () => {
    if (group.users && await fills(me, group.name)) { draw(true); made.append(addMember(group.name)) }
    if (rights.remove) made.append(make('div', {class: 'buttons'}, remove(group.name)))
  }
  grow().catch(fault => tell(why(fault), true))
  return made
}

const draw = groups => groups.length ? make('div', {class: 'cards'}, ...groups.map(card)) : make('p', {}, say('groups.none'))

function add() {
  const name = input({name: 'group', required: true, autocapitalize: 'none'})
  const press = make('button', {class: 'btn btn-primary'}, say('people.add.do'))
  const done = async () => {
    const group = name.value.trim()
    await ask('POST', path('groups', group), {users: []})
    name.value = ''
    await list.again()
    return say('groups.made', {group})
  }
  return section(say('groups.add'), make('form', {class: 'line', onsubmit: sends(press, done)}, field(say('groups.name'), name), press))
}

export async function fill(panel, reader) {
  me = reader
  list = pages('/groups', draw)
  // who may make groups may do all with groups: only an admin or a holder of admin:groups without a filter
  rights = {remove: await holds('delete:groups', me), add: me.admin || await holds('admin:groups', me)}
  panel.replaceChildren(make('h2', {class: 'visually-hidden'}, say('people.groups')), ...list.parts, rights.add ? add() : '')
  await list.first()
}
