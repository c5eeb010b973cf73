// What a script of another would do: run in an element, in a handler, and from elsewhere.
window.ran = [];
window.refused = [];
document.addEventListener("securitypolicyviolation", (event) => window.refused.push(event.effectiveDirective));
const script = document.createElement("script");
script.textContent = "window.ran.push('script')";
document.body.append(script);
const place = document.createElement("p");
place.innerHTML = `<img src="http://example.invalid/a.png" onerror="window.ran.push('handler')">`;
document.body.append(place);
return new Promise((done) => setTimeout(() => done([window.ran, window.refused]), 100));
