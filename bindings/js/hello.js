// The program of README.md: node bindings/js/hello.js
import {FluentBundle, FluentResource} from "./src/index.js";

const bundle = new FluentBundle("en-US", {useIsolating: false});
const errors = bundle.addResource(new FluentResource(`
mails = { $n ->
    [one] One mail
   *[other] { $n } mails
 } for { $name }, since { DATETIME($since, year: "numeric", month: "long") }
    .title = Mails of { $name }
`));
const message = bundle.getMessage("mails");
const args = {n: 1234, name: "Ada", since: new Date(2026, 10, 29)};
console.log(bundle.formatPattern(message.value, args, errors));
console.log(bundle.formatPattern(message.attributes.title, args, errors));
console.log(errors.length);
