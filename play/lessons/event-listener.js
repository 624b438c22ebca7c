// An event listener leaks its component: the bus holds the function, and the function holds `this`. removeEventListener
// needs the same function again; without it the bus keeps every component that was ever shown.
class Bus {
  listeners = [];
  on(listener) { this.listeners.push(listener); }
  off(listener) { this.listeners = this.listeners.filter((one) => one !== listener); }
}
class Component {
  constructor(bus) { this.listen = () => this.render(); bus.on(this.listen); }
  render() {}
}
const bus = new Bus();
let component = new Component(bus);
const ref = new WeakRef(component), listen = new WeakRef(component.listen);
component = null;
await turn();
gc();
console.log("not removed:", ref.deref() ? "leaked" : "gone");
await turn();
bus.off(listen.deref());
await turn();
gc();
console.log("removed:", ref.deref() ? "leaked" : "gone");
