"""Documents of a registry that was brought over, as the page shows them."""
import os

import pytest
from browser.conftest import Visit
from goo_service.records.attachments import Attachments
from goo_service.records.attachments import Content
from house import House


def test_a_holder_finds_its_documents_of_the_old_registry(
        visit: Visit, monkeypatch: pytest.MonkeyPatch, tmp_path_factory: pytest.TempPathFactory
        ) -> None:
    place = tmp_path_factory.mktemp('attachments')
    Attachments(place).add([Content('SUN', 'Beleg Ü.pdf', 'cancelled in 2024', b'%PDF-1.7 sun'),
                            Content('VOLT', 'volt.pdf', 'cancelled in 2024', b'%PDF-1.7')], None)
    monkeypatch.setitem(os.environ, 'GOO_ATTACHMENTS', str(place))
    with House() as house:
        house.make_country()
        house.wait_for_book()
        page = visit(house, 'anna', 'lists/attachments', 'table')
        shown = page.text('table', 'Beleg Ü.pdf')
        assert 'cancelled in 2024' in shown and 'volt.pdf' not in shown
        answer = house.ask('anna', 'GET', '/records/v1/attachments/1')
        assert (answer.status, answer.body) == (200, b'%PDF-1.7 sun')
        assert 'attachment' in answer.fields['content-disposition']
        assert house.ask('anna', 'GET', '/records/v1/attachments/2').status == 404
