// tlcp.js as an ES module. It is a file of its own, since a page that is opened as a file can't load modules.
import * as loaded from './tlcp.js';

const tlcp = loaded.default ?? globalThis.tlcp;
export const { Session, Subscription, UpdateEvent, RefusedError, LineError, LostError, PROTOCOL, decodeFields, readLine,
  pauseBefore } = tlcp;
export default tlcp;
