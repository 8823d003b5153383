"""`yadvorkhul serve`: a working case in a browser, shared by people with roles.

What the proved functions decide is decided nowhere here. A route calls the working case with the role of whoever is signed in, and shows
what the call answers. The journal of calls is the state: `journal` keeps it, `history` folds it, `shared` holds the working case that it
leads to, `views` says what a role is shown, `guard` and `people` let requests in, `routes` has the addresses.
"""
