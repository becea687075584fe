// Calls of the server. The token is the first part of the address; each call has it as a header, too.
const token = location.pathname.split("/")[1];

export class Refusal extends Error {
  constructor(why, status) {
    super(why);
    this.status = status;
  }
}

async function answered(path, how = {}) {
  let response;
  try {
    response = await fetch(path, { ...how, headers: { ...how.headers, "X-Desk-Token": token }, cache: "no-store" });
  } catch {
    throw new Refusal("the desk doesn't answer: was it closed? What you did is in its journal.", 0);
  }
  if (!response.ok) {
    const text = await response.text();
    let why = text.trim();
    try {
      why = JSON.parse(text).why;
    } catch {}
    throw new Refusal(why, response.status);
  }
  return response;
}

export const get = async path => (await answered(`api/${path}`)).json();

export const post = async (path, body = {}) => {
  const how = { method: "POST", headers: { "Content-Type": "application/json" }, body: JSON.stringify(body) };
  return (await answered(`api/${path}`, how)).json();
};

export const bytes = async (path, signal) => {
  const response = await answered(`api/${path}`, { signal });
  return { data: await response.arrayBuffer(), headers: response.headers };
};

// Takes each line that the server sends, until it ends. A browser has few connections for calls, but many of these.
export function follow(take) {
  return new Promise(end => {
    const from = new WebSocket(new URL("events", location).href.replace("http", "ws"));
    from.addEventListener("message", ({ data }) => take(JSON.parse(data)));
    from.addEventListener("close", end);
  });
}
