// Users, groups, roles and services: what of them the reader may see and change.
import {frame, main, menu, reader} from './frame.js'
import {make} from './dom.js'
import {say} from './texts.js'
import {holds} from './rights.js'

const parts = [['users', 'list:users'], ['groups', 'list:groups'], ['roles', 'admin:roles'], ['services', 'list:services']]
const panel = make('div', {id: 'panel', role: 'tabpanel', tabindex: -1})
const modules = {
  users: () => import('./users.js'), groups: () => import('./groups.js'),
  roles: () => import('./roles.js'), services: () => import('./services.js'),
}

async function choose(tabs, name, me) {
  for (const tab of tabs) {
    const chosen = tab.dataset.part == name
    tab.setAttribute('aria-selected', chosen)
    tab.tabIndex = chosen ? 0 : -1
  }
  panel.setAttribute('aria-labelledby', 'tab-' + name)
  history.replaceState(null, '', '#' + name)
  const {fill} = await modules[name]()
  await fill(panel, me)
}

/** Left and right go from tab to tab, as the pattern of tabs has it. */
function move(event, tabs) {
  const step = {ArrowRight: 1, ArrowLeft: -1}[event.key]
  if (!step) return
  const next = tabs[(tabs.indexOf(event.target) + step + tabs.length) % tabs.length]
  next.focus()
  next.click()
}

export async function show() {
  frame(say('people.title'))
  const me = await reader()
  menu(me)
  // the rights that the users' part wants are asked for with these, and not behind them
  const wanted = [...parts.map(([, right]) => right), 'admin:users', 'delete:users']
  const rights = await Promise.all(wanted.map(right => holds(right, me)))
  const names = parts.filter((_, place) => rights[place]).map(([name]) => name)
  if (!names.length) return main.append(make('p', {}, say('people.none')))
  const tab = name => {
    const attributes = {type: 'button', role: 'tab', id: 'tab-' + name, 'aria-controls': 'panel', 'data-part': name}
    return make('button', {...attributes, onclick: () => choose(tabs, name, me)}, say('people.' + name))
  }
  const tabs = names.map(tab)
  const bar = make('div', {role: 'tablist', 'aria-label': say('people.tabs'), onkeydown: event => move(event, tabs)}, ...tabs)
  if (names.length > 1) main.append(bar)
  main.append(panel)
  const asked = location.hash.slice(1)
  await choose(tabs, names.includes(asked) ? asked : names[0], me)
}
