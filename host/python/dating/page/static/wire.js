// Requests to the server. What cannot be reached, or fails, is told apart from every answer.

export class Unreached extends Error {}

export class Told extends Error {
  constructor(status, data) {
    super(data.error || `the server said ${status}`);
    this.status = status;
    this.data = data;
  }
}

let token = "";

export function takeToken(given) {
  token = given;
}

async function sent(path, options, seconds) {
  const stop = new AbortController();
  const timer = setTimeout(() => stop.abort(), seconds * 1000);
  let answer;
  let data;
  try {
    answer = await fetch(path, { ...options, signal: stop.signal, cache: "no-store", credentials: "same-origin", redirect: "error" });
    data = await answer.json();
  } catch (error) {
    throw new Unreached(stop.signal.aborted ? `no answer within ${seconds} seconds` : "the server cannot be reached");
  } finally {
    clearTimeout(timer);
  }
  if (!answer.ok) throw new Told(answer.status, data);
  return data;
}

export function get(path, fields = {}, seconds = 60) {
  const query = new URLSearchParams(fields).toString();
  return sent(query ? `${path}?${query}` : path, {}, seconds);
}

async function posted(path, body, seconds) {
  const headers = { "Content-Type": "application/json", "X-Dating-Token": token };
  return sent(path, { method: "POST", headers, body: JSON.stringify(body) }, seconds);
}

// A token of an earlier start of the server changes nothing there: the new one is asked for, and the request is sent once more.
export async function post(path, body, seconds = 60) {
  try {
    return await posted(path, body, seconds);
  } catch (error) {
    if (!(error instanceof Told && error.status === 403)) throw error;
    takeToken((await get("/sheet")).token);
    return posted(path, body, seconds);
  }
}
