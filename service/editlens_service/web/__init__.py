"""The handlers of the service, by what they are for.

requests   what a request says: its body, its headers, what it is about
pairs      pairs and hubs: made, shown, removed
edits      edits, patches, and changes that are taken back
streams    changes as Server-Sent Events
stores     a store's file, out and in
programs   another lens program for a pair
health     what an operator asks
desk       the page
app        all routes, and what stands around each
"""
