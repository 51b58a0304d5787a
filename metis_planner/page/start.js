"use strict";
// Reads what Python wrote into the page, and shows it.
const told = JSON.parse(byId("data").textContent);
globalThis.explorer = told.kind === "plan" ? new PlanPage(told) : new ReasonsPage();
