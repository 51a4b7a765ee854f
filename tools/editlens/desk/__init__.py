"""The desk: a page in the browser on which a person sees both documents of a session, edits either, and watches the other follow.

keepers     where the session is kept: in a run of the program, or in a store
shared      the session as all windows share it: its state, its edits one after another, also for older states, its history
desk        the desk of a pair
hub_keepers where a hub is kept
hub_desk    the desk of a hub
files       the users' files of a pair, and patches of them
replay      a script, step by step
drawing     documents and types in the form in which the page reads them
news        the places whose values a window needs after an edit
complement  what the lens remembers, in a sentence
loading     documents carried over to another lens program
server      the page and its calls over HTTP, on the loopback address alone
page/       the page itself
"""
