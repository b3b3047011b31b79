// What all pages have: the menu, a place for what is said, a question before what can't be undone, and how a press is carried out.
import {ask, early, Refused, signOut, whoever} from './hub.js'
import {button, make} from './dom.js'
import {language, say} from './texts.js'
import site from './site.js'
import {holds, listed} from './rights.js'

export const main = make('main', {id: 'main', tabindex: -1, class: 'container'})
const said = make('div', {id: 'said', role: 'status', 'aria-live': 'polite'})

/** Says something to the reader, as what was done or why it wasn't. */
export function tell(text, fault = false) {
  said.replaceChildren(text ? make('div', {class: 'alert ' + (fault ? 'alert-danger' : 'alert-success')}, text) : '')
}

/** Why something was refused, in words. A page may have words of its own for a message. */
export function why(fault, own = {}) {
  if (!(fault instanceof Refused)) throw fault
  const values = {status: fault.status, message: fault.message}
  const named = own[fault.message] ?? own[fault.status] ?? (fault.status ? 'refused.' + fault.status : 'unreachable')
  const text = say(named, values)
  return text == named ? say('refused.other', values) : text
}

/** Carries a press out: the button waits meanwhile, and what came of it is said. */
export async function carry(pressed, job, own) {
  pressed.disabled = true
  pressed.setAttribute('aria-busy', 'true')
  tell(say('working'))
  try { tell(await job()) } catch (fault) { tell(why(fault, own), true) } finally {
    pressed.disabled = false
    pressed.removeAttribute('aria-busy')
  }
}

/** What a form does when it is sent: nothing is loaded anew. */
export const sends = (pressed, job, own) => event => {
  event.preventDefault()
  return carry(pressed, job, own)
}

/** Asks before what can't be undone. */
export function sure(question, yes) {
  return new Promise(answer => {
    const id = 'question', asked = make('dialog', {'aria-labelledby': id, class: 'card'})
    const close = how => { asked.close(); asked.remove(); answer(how) }
    const no = button(say('cancel'), 'btn-outline-secondary', () => close(false))
    asked.append(make('p', {id}, question), make('div', {class: 'buttons'}, button(yes, 'btn-danger', () => close(true)), no))
    asked.addEventListener('cancel', () => close(false))
    document.body.append(asked)
    asked.showModal()
    no.focus()
  })
}

function menuItem(where, text) {
  const here = location.pathname == where || where == '/' && location.pathname == '/home'
  return make('li', {}, make('a', {href: where, class: 'nav-link', 'aria-current': here && 'page'}, text))
}

/** The menu: what the reader may not do isn't in it. */
export async function menu(me) {
  const items = [menuItem('/', say('menu.home')), menuItem('/share', say('menu.share')), menuItem('/tokens', say('menu.tokens'))]
  const list = make('ul', {class: 'nav'}, ...items)
  const leave = button(say('sign.out'), 'btn-outline-light', async () => {
    await signOut()
    location.assign('/sign-in#out')
  }, say('sign.out.title', {name: me.name}))
  const brand = make('a', {href: '/', class: 'brand'}, make('img', {src: '/assets/icon.svg', alt: '', width: 24, height: 24}), site.title)
  const bar = make('nav', {'aria-label': say('menu')}, brand, list, make('span', {class: 'who', id: 'who'}, me.name), leave)
  document.querySelector('header').replaceChildren(bar)
  if (!me.admin && !await holds('read:shares', me)) list.children[1].remove()
  if (me.admin || await holds('list:users', me)) list.append(menuItem('/people', say(me.admin ? 'menu.admin' : 'menu.people')))
  for (const name of await listed('services', me)) {
    if (site.services[name]) list.append(menuItem(site.servers + `/services/${name}/`, site.services[name]))
  }
}

/** Sets a page up under its title. */
export function frame(title) {
  document.documentElement.lang = language
  document.title = `${title} · ${site.title}`
  const skip = make('a', {href: '#main', class: 'visually-hidden-focusable skip'}, say('skip'))
  main.replaceChildren(make('h1', {}, title), said)
  document.body.replaceChildren(skip, make('header', {}), main)
}

/** The reader, who is sent to sign in where there is none. */
export async function reader() {
  return await (early('reader') ?? whoever()) ?? await ask('GET', '/user')
}
