"""Pages of sites, days, stations and transactions, made of the store's views: written as files, or served.

    write           writes the files of all pages, or of those that changed
    site_pages      all sites, a site          month_pages    a month of a site or a station
    day_pages       a day                      station_pages  a station
    session_pages   a transaction              list_pages     findings, lacking, refused, deeds, stations, closings
    closing_pages   a closing                  summaries      what a site's page has of each station
    reader          what is read of the store  day_book       days and months, read once for several pages
    links           files or addresses         context        what all pages share
    pictures, months, lanes                    pictures
"""

from ocpp_board.writers.pages.context import PageOptions
from ocpp_board.writers.pages.write import PageWriter, write_pages

__all__ = ["PageOptions", "PageWriter", "write_pages"]
