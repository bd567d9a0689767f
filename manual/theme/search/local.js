// Lets the search work in pages that are opened as files: a browser then neither reads the index nor starts a worker. So a frame runs the
// worker's script, and the index comes as a script of its own, once somebody searches.
if (location.protocol === "file:") {
  const folder = document.currentScript.src.replace(/[^/]*$/, "");
  const load = () => document.head.append(Object.assign(document.createElement("script"), { src: folder + "index.js" }));
  window.__search = { index: new Promise((done) => { window.__index = done; }) };
  if (location.search) {
    load(); // to mark the words that were searched for
  } else {
    addEventListener("focusin", function asked(event) {
      if (event.target.matches("[data-md-component=search-query]")) {
        removeEventListener("focusin", asked);
        load();
      }
    });
  }
  window.Worker = class extends EventTarget {
    constructor(url) {
      super();
      const frame = Object.assign(document.createElement("iframe"), { hidden: true, srcdoc: `<script src="${url}"></script>` });
      this.within = new Promise((done) => {
        frame.onload = () => {
          frame.contentWindow.postMessage = (data) => this.dispatchEvent(new MessageEvent("message", { data }));
          done(frame.contentWindow);
        };
      });
      addEventListener("DOMContentLoaded", () => document.body.append(frame));
    }
    postMessage(data) {
      this.within.then((within) => within.dispatchEvent(new within.MessageEvent("message", { data })));
    }
  };
}
