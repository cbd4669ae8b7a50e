"""The page of the registry, driven in headless Chromium through the front door of a house.

How to write such a test:

    def test_a_holder_sees_the_sum(house: House, visit: Visit) -> None:
        lot = stage.issue(house, count=300)        # an account and certificates of its own
        page = visit(house, 'anna', f'account/{lot.account}')
        assert '300' in page.text('ul.sums')       # waits until it is there

1. `visit(house, user, page)` signs a user in and gives a `chromium.Browser`. One whose console has
   an error at the end of the test fails it. Nothing else has to be ended.
2. Tests of one file share `house`, and each makes what it needs in it: `stage.issue` gives an
   account with certificates. Whoever needs a registry for himself asks for `own_house`. So each
   test can be run alone, twice, and in any order.
3. Never sleep, and never look at once: `see`, `text`, `cells_when` and `wait` wait up to a minute
   for a condition. It has to be one that only the act under test brings about: `send` and `go`
   take away what stood there before; elsewhere `forget(css)` does, before the act.
4. Expected values come from the registry's own texts (`house.ask`, `stage.statement`), the
   documents, or what the test sent; whether something was sent at all, `house.entry()` tells.
   The records follow within a second: `house.wait_for_book()` before a page that shows them.
5. `page.look(name)` fails where contrast, names of controls or a width are at fault, in light and
   dark, and keeps a picture where `tools/trials/page --pictures FOLDER` asks for them.
6. `@pytest.mark.thorough` marks what `--quick`, and so ./check, leaves out.
7. `relay.Relay(house)` stands before the log and can lose answers.
"""
