// Requests to the server. A write has an identity, so that it is done once where it has to be sent twice.

const token = document.querySelector("meta[name=token]").content;
const TRIES = 6;

function wait(milliseconds) {
  return new Promise((done) => setTimeout(done, milliseconds));
}

async function answered(response) {
  if (response.status === 401) {
    location.assign("/sign-in");
    return new Promise(() => {});
  }
  const kind = response.headers.get("Content-Type") || "";
  const told = kind.startsWith("application/json") ? await response.json() : {};
  return { status: response.status, told };
}

export async function get(path) {
  return answered(await fetch(path, { credentials: "same-origin", cache: "no-store" }));
}

function identity() {
  return Array.from(crypto.getRandomValues(new Uint8Array(12)), (byte) => byte.toString(16).padStart(2, "0")).join("");
}

// Sends a write. Where the line fails it is sent again; `late` is told so.
export async function post(path, body, late) {
  const text = JSON.stringify({ ...body, id: identity() });
  const headers = { "Content-Type": "application/json", "X-Token": token };
  for (let k = 1; ; k++) {
    try {
      return await answered(await fetch(path, { method: "POST", body: text, headers, credentials: "same-origin" }));
    } catch (error) {
      if (k === TRIES) return { status: 0, told: { sentence: "The server does not answer. The change was not confirmed; look again before you repeat it." } };
      if (late) late();
      await wait(300 * 2 ** k);
    }
  }
}
