"use strict";
// A folder in which make works: what is done, running and failed in it, and how a page that is served follows it.
const PAUSE = 2_000;
const MOST_LOGS = 5;
const timeOfDay = (seconds) => new Date(seconds * 1_000).toLocaleTimeString();

class Live {
  constructor(page, state) {
    Object.assign(this, { page, state, lost: "", logs: null });
    if (state.serves) setTimeout(() => this.poll(), PAUSE);
  }

  isFollowing = () => byId("follow").checked;

  // What the folder says of an action that was begun and is not done, while it is followed.
  begun = (k) => (this.isFollowing() ? this.state.begun.find(({ number }) => number === k + 1) : undefined);

  // As it happened, and then what is left as it is printed.
  order() {
    const place = new Map(this.state.done.map((number, index) => [number - 1, index]));
    return arranged(this.page.walk.waits, (k) => place.get(k) ?? Infinity);
  }

  follow() {
    const { page, state: { done, begun, now, times } } = this;
    page.times = timesOf(times);
    byId("views").hidden = !times;
    const failed = begun.filter(({ status }) => status !== "running");
    const running = begun.length - failed.length;
    const trying = "You are trying an order: nothing is carried out, and this is not what the folder has.";
    put(byId("warn"), this.isFollowing() ? failed.slice(0, 5).map((each) => this.failure(each)) : trying, this.lost);
    this.sayLogs(failed);
    const counts = [[done.length, "done"], [running, "running"], [failed.length, "failed or stopped"]];
    const text = counts.filter(([count], place) => count || !place).map((each) => each.join(" ")).join(", ");
    put(byId("now-there"), ` · ${text} at ${timeOfDay(now)}`);
    if (this.isFollowing()) page.walk.set(this.order(), done.length, "real", false);
    page.paint();
  }

  // The end of each log of what failed, headed by the words that print the whole of it.
  sayLogs(failed) {
    const { plan } = this.page;
    const textOf = ({ number, tail }) => `${number} ${tail.join("\n")}`;
    const shown = failed.slice(0, MOST_LOGS);
    const text = shown.map(textOf).join("\n");
    if (text === this.logs) return; // where nothing is new, a log stays scrolled as it is
    this.logs = text;
    const log = ({ number, said, tail }) => {
      const words = `metis log ${this.state.folder} ${plan.who(plan.actions[number - 1].instance)}`;
      const copy = h("button", { click: ({ target }) => copied(words, target) }, "copy");
      const lines = tail.length ? h("pre", { tabindex: 0, role: "region", "aria-label": words }, tail.join("\n")) : "";
      const title = h("h2", {}, `${number} ${plan.inWords(number - 1)}: ${said}`);
      return h("article", {}, title, h("code", {}, words), copy, lines);
    };
    const more = failed.length > MOST_LOGS ? p(soft(`and ${failed.length - MOST_LOGS} more`)) : "";
    put(byId("logs"), shown.map(log), more);
    for (const pre of byId("logs").querySelectorAll("pre")) pre.scrollTop = pre.scrollHeight;
  }

  failure({ number, said }) {
    const { panel, plan, walk } = this.page;
    const [k, count] = [number - 1, walk.waits.allAfter(number - 1).size];
    return h("div", {}, panel.ref(k, `${number}  ${plan.inWords(k)}`), ` ${said}; ${count} wait for it`);
  }

  async poll() {
    try {
      const answer = await fetch("state", { cache: "no-store" });
      if (!answer.ok) throw new Error(await answer.text());
      const next = await answer.json();
      if (next.plan !== this.state.plan) location.reload();
      this.lost = "";
      const isOther = JSON.stringify(next.times) !== JSON.stringify(this.state.times);
      Object.assign(this.state, next);
      this.follow();
      if (isOther && this.page.view === "time") this.page.layOut(undefined, true);
    } catch ({ message }) {
      const last = `shown is what was at ${timeOfDay(this.state.now)}`;
      this.lost = h("div", {}, `The folder cannot be followed (${message}); ${last}.`);
      this.follow();
    }
    setTimeout(() => this.poll(), PAUSE);
  }
}
