#!/usr/bin/env python3
"""An account book: account_book.py FOLDER deposit|withdraw ACCOUNT AMOUNT, move FROM TO AMOUNT, or list.

Account N is record N: its balance in cents, and record 0 counts the bookings. Each booking is one transaction, so no
crash leaves half of it, and two at once give the sums of one after the other."""
import sys

from vulzhorn import Database, Refused


def number(value):
    return int(value or b"0")


def book(db, changes):
    """Adds to each account its amount; none may fall below nothing."""
    def in_one(transaction):
        for account, amount in changes.items():
            balance = number(transaction.read(account)) + amount
            if balance < 0:
                raise ValueError(f"account {account} lacks {-balance}")
            transaction.write(account, b"%d" % balance)
        count = number(transaction.read(0)) + 1
        transaction.write(0, b"%d" % count)
        return count

    return db.transact(in_one)


def main(folder, word, *rest):
    numbers = [int(text) for text in rest]
    with Database(folder, sizes=(64, 64, 400)) as db:
        if word == "list":
            for account, balance in db.scan(1, len(db) - 1):
                print(f"{account:6} {number(balance):12}")
            return
        if word == "move":
            source, target, amount = numbers
            changes = {source: -amount, target: amount}
        else:
            account, amount = numbers
            changes = {account: amount if word == "deposit" else -amount}
        print("booking", book(db, changes))


if __name__ == "__main__":
    try:
        main(*sys.argv[1:])
    except (TypeError, ValueError, Refused) as error:
        sys.exit(f"{error}\n{__doc__}")
