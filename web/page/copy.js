// A text into the clipboard.

// By the older way, for pages and browsers without the newer one: a field that is there for no longer than that.
const copiedByField = (text) => {
  const field = document.createElement('textarea');
  field.className = 'unseen';
  field.value = text;
  document.body.append(field);
  field.select();
  try {
    return document.execCommand('copy');
  } finally {
    field.remove();
  }
};

/** Copies a text, and returns whether it was copied. */
export const copied = async (text) => {
  try {
    await navigator.clipboard.writeText(text);
    return true;
  } catch {
    return copiedByField(text);
  }
};
