// Sign-in: a name and a password, which go to the front's sign-in program and nowhere else.
import {early, signIn, whoever} from './hub.js'
import {button, field, input, make} from './dom.js'
import {frame, main, tell} from './frame.js'
import {say} from './texts.js'
import site from './site.js'

/** Where the reader wanted to go: an address of these pages, else the home page. */
function wanted() {
  const asked = location.search.startsWith('?next=') ? location.search.slice(6) + location.hash : '/'
  try {
    const url = new URL(asked, location.origin)
    if (asked[0] == '/' && url.origin == location.origin) return url.href
  } catch { /* no address at all */ }
  return location.origin + '/'
}

/** What the hub will let the reader into behind the sign-in, if it is that. */
function destination() {
  const client = new URL(wanted()).searchParams.get('client_id') ?? ''
  return client.replace(/^server:(.*?)\/?$/, '/user/$1/').replace(/^service:/, '/services/')
}

function why(fault) {
  if (fault.message == 'wrong name or password') return say('signin.wrong')
  if (fault.message == 'no user of this hub') return say('signin.stranger')
  if (fault.status == 429) return say('signin.often')
  if (fault.status == 403) return say('signin.nobody')
  return say(fault.status ? 'refused.502' : 'unreachable')
}

function form(enter) {
  const name = input({name: 'username', autocomplete: 'username', autocapitalize: 'none', spellcheck: 'false', required: true})
  const password = input({name: 'password', type: 'password', autocomplete: 'current-password', required: true})
  const press = make('button', {class: 'btn btn-primary', type: 'submit'}, say('signin.do'))
  const sent = async event => {
    event.preventDefault()
    press.disabled = true
    try { await enter(name.value.trim(), password.value) } catch (fault) {
      tell(why(fault), true)
      password.value = ''
      password.focus()
    } finally { press.disabled = false }
  }
  const fields = [field(say('signin.name'), name), field(say('signin.password'), password)]
  return make('form', {class: 'card narrow', onsubmit: sent}, ...fields, press)
}

/** A front that stands before this one has signed the reader in: nothing is asked, but after a sign-out or where that failed. */
async function byHeader(enter) {
  const again = () => enter().catch(fault => tell(why(fault), true))
  if (location.hash != '#out') await again()
  main.append(button(say('signin.again'), 'btn-primary', again))
}

export async function show() {
  frame(say('signin.title'))
  document.querySelector('header').append(make('nav', {'aria-label': say('menu')}, make('span', {class: 'brand'}, site.title)))
  const enter = async (name, password) => {
    await signIn(name, password)
    tell(say('signin.go'))
    location.replace(wanted())
  }
  if (location.hash == '#out') tell(say('signin.out'))
  else if (await (early('reader') ?? whoever()).catch(() => null)) return location.replace(wanted())
  if (site.signIn == 'header') return byHeader(() => enter('', null))
  if (destination()) main.append(make('p', {}, say('signin.next', {where: destination()})))
  main.append(form(enter))
  main.querySelector('input').focus()
}
