"use strict";
// What stands after some actions: the instances with their states, and what each of them takes from whom.
function configuration(plan, ks) {
  const all = new Map();
  for (const k of ks) {
    const { verb, instance, to, port, provider } = plan.actions[k];
    if (verb === "new") all.set(instance, { state: plan.initial(instance), takes: [] });
    else if (verb === "move") all.get(instance).state = to;
    else if (verb === "bind") all.get(instance).takes.push([port, provider]);
    else if (verb === "delete") all.delete(instance);
    else {
      const one = all.get(instance);
      one.takes = one.takes.filter(([taken, from]) => taken !== port || from !== provider);
    }
  }
  return all;
}

// From whom an instance takes a port, of those that provide it now.
function providersOf(plan, all, instance, port) {
  const takes = all.get(instance).takes.filter(([taken]) => taken === port);
  return takes.map(([, from]) => from).filter((from) => plan.provides(from, all.get(from)?.state, port));
}

// The ports that an instance would lack in a state.
function lacking(plan, all, instance, state) {
  const isLacking = ([port, count]) => providersOf(plan, all, instance, port).length < count;
  return [...plan.requires(instance, state)].filter(isLacking).map(([port]) => port);
}

const unmet = (plan, all) => [...all].flatMap(([instance, { state }]) => lacking(plan, all, instance, state));

// How many of the instances that are wanted stand as they are wanted.
function countAsWanted(all, wanted) {
  const takesAll = (one, takes) => takes.every(([port, from]) => one.takes.some(([p, y]) => p === port && y === from));
  const isThere = ([instance, { state, takes }]) => {
    const one = all.get(instance);
    return one !== undefined && one.state === state && takesAll(one, takes);
  };
  return [...wanted].filter(isThere).length;
}

// What each rollout starts from, and what it comes to.
function changesOf(plan) {
  const after = (count) => configuration(plan, [...plan.actions.keys()].slice(0, count));
  const pairs = plan.phases.map((phase, place) => [plan.phases[place - 1], phase]);
  const removals = pairs.filter(([, { kind }]) => kind === "removal");
  return removals.map(([{ from: old }, { to: end }]) => ({ old, before: after(old), after: after(end) }));
}
