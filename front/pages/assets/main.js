// Shows the page of this address. What it needs beside the frame is read with it, and what it asks the hub first is asked meanwhile.
import {begin, page, whoever} from './hub.js'

const pages = {
  '/': () => import('./home.js'), '/home': () => import('./home.js'), '/share': () => import('./share.js'),
  '/tokens': () => import('./tokens.js'), '/people': () => import('./people.js'), '/sign-in': () => import('./sign-in.js'),
}
// what people look at first there comes with its page, and not behind it
if (location.pathname == '/people' && ['', '#users'].includes(location.hash)) {
  begin('/users', page('/users', 0, 50))
  import('./users.js')
}
begin('reader', whoever())
const shown = await pages[location.pathname]()
// this module doesn't wait for the page, so that the hub is asked at once
if (document.readyState == 'loading') await new Promise(done => document.addEventListener('DOMContentLoaded', done))
await shown.show()
// a browser keeps a page whole for its back button, and somebody may have signed out meanwhile: so nothing is left on it, and it asks anew
addEventListener('pagehide', () => document.body.replaceChildren())
addEventListener('pageshow', event => event.persisted && location.reload())
