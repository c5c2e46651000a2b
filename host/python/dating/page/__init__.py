"""The register as a page in the browser, over the file that is its history.

    python3 -m dating.page house.txt

One page is served on 127.0.0.1, with its own script alone. What is entered goes into a draft, which Save makes all or none; everything that is accepted is in
the file before the page says so.

`main`      the command
`server`    requests over HTTP: who may ask, how much, and which call answers
`desk`      the register, what has changed since a page last looked, Save, undo, closing up
`asked`     the questions, in words, as rows and as a picture
`effect`    what a draft would change in a question
`picture`   chains, and how far one goes, as SVG
`fields`    what was typed, read
`static`    the page itself
"""
