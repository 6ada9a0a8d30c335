"""What web/check tries of the page."""
