"""`ocpp-board web`: the pages of a store in a browser, operators' deeds, and a read API for programs.

    desk        what requests share: stores, who asks, what a form says, how a fault is answered
    signing     operators by password or by a proxy's header, and programs by token
    views       the pages, made of the store's views when they are asked for
    deeds       voids, restorations and erasures: what they will change, and what became of them
    api         the read API
    app         the routes
"""
