define(`gust', `14')wind=gust `gust' # gust, include(none)
calm=len(gust