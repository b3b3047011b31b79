// A page of an error: what happened, and one thing to do. It stands at the address that failed, also at that of a server.
import {button, heading, make} from './dom.js'
import {language, say, texts} from './texts.js'
import site from './site.js'

const told = document.documentElement.dataset.status
// on the way into a server or service the hub says 404 to who may enter others, and not this one
const status = location.pathname == '/hub/api/oauth2/authorize' && told == 404 ? '403' : told

/** What the reader wanted: a server, a service or the hub, and whose. */
function wanted() {
  const client = new URLSearchParams(location.search).get('client_id') ?? ''
  const asked = client.replace(/^server:/, '/user/').replace(/^service:/, '/services/') || location.pathname
  const found = asked.match(/^\/(user|services)\/([^/]+)/)
  let owner = found?.[2] ?? ''
  try { owner = decodeURIComponent(owner) } catch { /* as it stands */ }
  return {kind: !found ? 'hub' : found[1] == 'user' ? 'server' : 'service', owner}
}

const {kind, owner} = wanted()
const named = [`error.${kind}.${status}`, `error.any.${status}`, 'error.any.other'].find(name => name in texts)
const title = say([`error.title.${kind}.${status}`, `error.title.${status}`, 'error.title.other'].find(name => name in texts))
const link = (where, text) => make('a', {href: where, class: 'btn btn-primary'}, text)

function whatToDo() {
  if (status == 403) return link(site.public + '/sign-in', say('error.signin'))
  if (['429', '502', '504'].includes(status) || status == 503 && kind != 'server') {
    return button(say('error.again'), 'btn-primary', () => location.reload())
  }
  return link(site.public + '/', say('error.home'))
}

document.documentElement.lang = language
document.title = `${title} · ${site.title}`
const brand = make('a', {href: site.public + '/', class: 'brand'}, site.title)
const header = make('header', {}, make('nav', {'aria-label': say('menu')}, brand))
const main = make('main', {id: 'main', class: 'container'}, heading(1, title), make('p', {}, say(named, {owner})), whatToDo())
document.body.replaceChildren(header, main)
