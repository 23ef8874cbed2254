"""An HTTP server that answers the clients of Wayback CDX servers, over `warcdx serve`."""
