'use strict';
// JSON-RPC over two streams, as the Language Server Protocol frames it: `Content-Length: N`, an empty line, and N bytes of JSON.

/** @typedef {import('./types').RpcMessage} RpcMessage */
/** @typedef {import('../cli/types').KnownError & { kind?: string }} KindError */

/** @type {Record<string, number>} */
const ERRORS = {
  parse: -32700, invalidRequest: -32600, methodNotFound: -32601, invalidParams: -32602, internal: -32603, notInitialized: -32002, cancelled: -32800,
};
// The longest header and the longest message that are taken, in bytes.
const LONGEST_HEADER = 8192;
const LONGEST = 1 << 28;

/** An error that is answered with a code of the protocol. */
class ResponseError extends Error {
  constructor(/** @type {string} */ kind, /** @type {string} */ message) {
    super(message);
    this.kind = kind;
  }
}

/** Parts a stream of bytes into messages. What is no message is told by `onError`, and passed over. */
class Framing {
  constructor(/** @type {(message: RpcMessage) => void} */ onMessage, /** @type {(text: string) => void} */ onError) {
    this.onMessage = onMessage;
    this.onError = onError;
    /** @type {Buffer[]} */
    this.parts = [];
    this.held = 0;
    // The bytes of the message that is awaited; null where its header is.
    /** @type {number | null} */
    this.length = null;
    // The bytes of a message that is passed over.
    this.passed = 0;
  }

  take(/** @type {Buffer} */ part) {
    const rest = part.subarray(Math.min(this.passed, part.length));
    this.passed -= part.length - rest.length;
    if (!rest.length) return;
    this.parts.push(rest);
    this.held += rest.length;
    if (this.length !== null && this.held < this.length) return;
    /** @type {Buffer | null} */
    let whole = Buffer.concat(/** @type {Uint8Array[]} */ (this.parts));
    while (whole !== null) {
      this.parts = [whole];
      this.held = whole.length;
      whole = this.length === null ? this.header(whole) : this.message(whole);
    }
  }

  /** Reads a header, and answers what stands behind it; null where it is not whole. */
  header(/** @type {Buffer} */ bytes) {
    const end = bytes.indexOf('\r\n\r\n');
    if (end < 0) {
      if (bytes.length <= LONGEST_HEADER) return null;
      this.onError('the header of a message does not end');
      return bytes.subarray(bytes.length - 3);
    }
    const found = /^Content-Length: *(\d{1,15})\s*$/im.exec(bytes.subarray(0, end).toString('latin1'));
    const rest = bytes.subarray(end + 4);
    if (!found) this.onError('a header has no Content-Length');
    else if (Number(found[1]) > LONGEST) {
      this.onError(`a message of ${found[1]} bytes is too long`);
      this.passed = Math.max(0, Number(found[1]) - rest.length);
      return rest.subarray(Math.min(rest.length, Number(found[1])));
    } else this.length = Number(found[1]);
    return rest;
  }

  message(/** @type {Buffer} */ bytes) {
    if (this.length === null || bytes.length < this.length) return null;
    const text = bytes.subarray(0, this.length).toString();
    const rest = bytes.subarray(this.length);
    this.length = null;
    try {
      this.onMessage(JSON.parse(text));
    } catch (error) {
      if (!(error instanceof SyntaxError)) throw error;
      this.onError('a message is no JSON');
    }
    return rest;
  }
}

/** One end of a connection. `handlers` has a function for each method: `(params, signal) -> result`. */
class Connection {
  constructor(/** @type {NodeJS.ReadableStream} */ input, /** @type {NodeJS.WritableStream} */ output, /** @type {Record<string, import('./types').Handler>} */ handlers) {
    this.output = output;
    this.handlers = handlers;
    /** @type {Map<unknown, AbortController>} */
    this.running = new Map();
    /** @type {Map<unknown, (result: unknown) => void>} */
    this.asked = new Map();
    this.next = 1;
    const framing = new Framing((message) => this.receive(message), (text) => this.fail(null, ERRORS.parse, text));
    input.on('data', (/** @type {Buffer} */ part) => framing.take(part));
  }

  send(/** @type {RpcMessage} */ message) {
    const text = JSON.stringify({ jsonrpc: '2.0', ...message });
    this.output.write(`Content-Length: ${Buffer.byteLength(text)}\r\n\r\n${text}`);
  }

  notify(/** @type {string} */ method, /** @type {object} */ params) {
    this.send({ method, params });
  }

  /** Asks the client, whose answer is awaited. */
  request(/** @type {string} */ method, /** @type {object} */ params) {
    const id = this.next++;
    this.send({ id, method, params });
    return new Promise((resolve) => this.asked.set(id, resolve));
  }

  fail(/** @type {RpcMessage['id']} */ id, /** @type {number} */ code, /** @type {string} */ message) {
    this.send({ id, error: { code, message } });
  }

  receive(/** @type {RpcMessage} */ message) {
    if (message === null || typeof message !== 'object' || Array.isArray(message)) this.fail(null, ERRORS.invalidRequest, 'a message is no object');
    else if (typeof message.method === 'string') this.call({ ...message, method: message.method });
    else if (this.asked.has(message.id)) {
      const take = this.asked.get(message.id);
      this.asked.delete(message.id);
      if (take) take(message.result);
    } else if (!('result' in message || 'error' in message)) this.fail(message.id === undefined ? null : message.id, ERRORS.invalidRequest, 'a message has no method');
  }

  /** Calls what a message asks for. A notification, which has no id, is never answered. */
  async call(/** @type {RpcMessage & { method: string }} */ { id, method, params }) {
    if (method === '$/cancelRequest') {
      const { id: asked } = /** @type {RpcMessage} */ (params || {});
      const running = this.running.get(asked);
      if (running) running.abort();
      return;
    }
    const controller = new AbortController();
    const isRequest = id !== undefined;
    if (isRequest) this.running.set(id, controller);
    try {
      if (!Object.hasOwn(this.handlers, method)) throw new ResponseError('methodNotFound', `there is no method ${method}`);
      const result = await this.handlers[method](params || {}, controller.signal);
      if (isRequest) this.send({ id, result: result === undefined ? null : result });
    } catch (thrown) {
      const error = /** @type {KindError} */ (thrown);
      if (!isRequest) this.log(error, method);
      else if (controller.signal.aborted) this.fail(id, ERRORS.cancelled, 'the request was cancelled');
      else this.fail(id, ERRORS[error.kind || ''] || ERRORS.internal, error.message);
    } finally {
      this.running.delete(id);
    }
  }

  /** Tells the client of a fault in a notification. One that the protocol lets a server pass over is none. */
  log(/** @type {KindError} */ error, /** @type {string} */ method) {
    if (error.kind === 'methodNotFound' || error.kind === 'notInitialized') return;
    this.notify('window/logMessage', { type: 1, message: `${method}: ${error.message}` });
  }
}

module.exports = { Connection, Framing, ResponseError };
