// Which way the texts of a language run.

const LEFTWARD = new Set([
    "Adlm", "Arab", "Aran", "Hebr", "Mand", "Mend", "Nkoo", "Rohg", "Samr", "Syrc", "Thaa", "Yezi",
]);

export function directionOf(tag) {
    try {
        return LEFTWARD.has(new Intl.Locale(tag).maximize().script) ? "rtl" : "ltr";
    } catch {
        return "ltr";
    }
}

// The tag if it is one that a `lang` attribute may have, or nothing.
export function tagOf(text) {
    try {
        return new Intl.Locale(text).toString();
    } catch {
        return "";
    }
}

const names = new Intl.DisplayNames("en", {type: "language", fallback: "none"});

function isLanguage(text) {
    return /^[a-z]{2,3}(-[A-Za-z0-9]{2,8})*$/.test(text) && tagOf(text) !== "" && names.of(text.split("-")[0]) !== undefined;
}

// The language that a file's path names, as pl/main.ftl or main.pl.ftl, or nothing.
export function languageOf(path) {
    const parts = path.replace(/\.ftl$/i, "").replaceAll("_", "-").split(/[/\\.]/);
    return parts.findLast(isLanguage) ?? "";
}
