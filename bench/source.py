"""A script as people write them, of any size: functions, objects, loops, texts and comments."""

BLOCK = """\
/*
 * Accounts of group @: each has an owner, a balance and a list of entries.
 * An entry is an object with a kind and an amount.
 */
const kinds@ = ['deposit', 'withdrawal', "transfer", 'it\\'s a fee'];

// Makes an account, with no entries yet.
function account@(owner, balance) {
  const entries = [];
  let total = balance; // what it holds now
  return {
    owner: owner,
    'group-number': @,
    total: () => total,
    add: function (kind, amount) {
      if (kinds@.indexOf(kind) < 0 || amount <= 0) {
        throw new TypeError('no such entry: ' + kind + ' of ' + amount);
      } else if (kind === 'withdrawal' && amount > total) {
        return false;
      }
      total = kind === "withdrawal" ? total - amount : total + amount;
      entries.push({ kind: kind, amount: amount, after: total });
      return true;
    },
    largest: function () {
      let largest = null;
      for (const entry of entries) {
        if (largest === null || entry.amount > largest.amount) {
          largest = entry;
        }
      }
      return largest;
    }
  };
}

function spread@(accounts, amount) {
  let left = amount;
  for (let i = 0; i < accounts.length; i++) {
    const share = (left - left % (accounts.length - i)) / (accounts.length - i);
    try {
      accounts[i].add('deposit', share + 0x10 * 0);
      left -= share;
    } catch (error) {
      console.log('account ' + i, error.message); // goes on with the next one
    } finally {
      left = left >>> 0;
    }
  }
  while (left > 0) {
    accounts[0].add(kinds@[0], 1);
    left--;
  }
  return accounts.map(a => a.total()).filter((total) => total !== 0 && !(total < 0));
}

globalThis.group@ = spread@([account@('Ada', 1024), account@("Grace\\tHopper", 2048)], 9007199254 + @);
console.log('group @', globalThis.group@.join(', '), typeof account@, ~@ & 255 | 1 << 4 ^ 3);

"""


def script(size):
    """A script of exactly so many bytes, at least 3,000: whole blocks, then a comment."""
    parts, left, number = [], size, 0
    while left > 3_000:
        part = BLOCK.replace("@", str(number))
        parts.append(part)
        left -= len(part)
        number += 1
    parts.append("//" + "-" * (left - 3) + "\n")
    return "".join(parts)
